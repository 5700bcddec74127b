"""What try_pictures.py tries `nfsbench draw` on, and what it compares the pages with.

    pages       a page as an XML parser reads it: its heading, its rows, its bars with where they stand
    escapes     bytes as text of a page
    wanted      which calls a page has to show, by the rules of `differ`
    looks       what differs between a page and what it has to show
    stories     a history made by hand, with its certificate
    hostile     stories of names, texts and data that are hard on a page
    shapes      stories whose pages are large
"""
