"""Rows of commands that get no memory, and a recorder that gets none while something happens."""
import os
import resource
import struct
import subprocess
import time

from wrong.process import soon

from .faults import RIGHT
from .recordings import Recording, Visitor
from .runs import Answer, Setting
from .table import Row

ARMED = r"""
#include <errno.h>
#include <stdlib.h>
#include <unistd.h>
void *__libc_malloc(size_t); void *__libc_calloc(size_t, size_t); void *__libc_realloc(void *, size_t); void *__libc_memalign(size_t, size_t);
static int is_refused(void) {
  const char *file = getenv("REFUSE_WHILE");
  if (!file || access(file, F_OK)) return 0;
  errno = ENOMEM;
  return 1;
}
void *malloc(size_t size) { return is_refused() ? NULL : __libc_malloc(size); }
void *calloc(size_t count, size_t size) { return is_refused() ? NULL : __libc_calloc(count, size); }
void *realloc(void *old, size_t size) { return is_refused() ? NULL : __libc_realloc(old, size); }
void *memalign(size_t to, size_t size) { return is_refused() ? NULL : __libc_memalign(to, size); }
void *aligned_alloc(size_t to, size_t size) { return memalign(to, size); }
int posix_memalign(void **made, size_t to, size_t size) { *made = memalign(to, size); return *made ? 0 : ENOMEM; }
"""


# The head of a capture of Ethernet frames, in microseconds.
PCAP = struct.pack("<IHHiIII", 0xA1B2C3D4, 2, 4, 0, 0, 262144, 1)


def short_of_memory(setting: Setting, happens) -> Answer:
    """While something happens the recorder gets no memory."""
    library, mark = setting.folder / "armed.so", setting.folder / "armed"
    subprocess.run(["cc", "-O1", "-shared", "-fPIC", "-x", "c", "-o", library, "-"], input=ARMED, text=True, check=True)
    recording = Recording(setting, RIGHT, program=setting.wrapped(f'LD_PRELOAD="{library}" REFUSE_WHILE="{mark}"'))
    client = recording.visitor().visit(b"a")
    time.sleep(0.5)
    mark.touch()
    happens(recording, client)
    mark.unlink()
    time.sleep(0.3)
    return recording.end()


def order_crash(recording: Recording, client: Visitor) -> None:
    recording.order("crash\n")
    soon(lambda: "out of memory" in recording.heard.read_text())


def end_by_server(recording: Recording, client: Visitor) -> None:
    recording.server.crash()
    time.sleep(1)


def no_memory(*line: str, front: bytes = b""):
    """The command may have 40 MB in all, its file has 64 MB. It begins as a history does, or so."""
    def trial(setting: Setting) -> Answer:
        history = setting.history()
        if front:
            history.write_bytes(front)
        os.truncate(history, 64 << 20)
        limit = lambda: resource.setrlimit(resource.RLIMIT_AS, (40 << 20, 40 << 20))
        return setting.run(*line, history, setting.folder / "certificate", preexec_fn=limit)
    return trial


MEMORY = [
    Row("(g) no memory to check", "There is no memory for the history", "check", no_memory("check"), "out of memory"),
    Row("(g) no memory to mend", "There is no memory for the part", "mend", no_memory("mend"), "out of memory"),
    Row("(g) no memory to import", "There is no memory for the capture", "import", no_memory("import", "--port", "2049", front=PCAP), "out of memory"),
]
