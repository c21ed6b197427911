"""A plan and its run as one page that stands alone: no network, and no script to read it.

    >>> from pirkvezo import read
    >>> from pirkvezo.report import page
    >>> text = b'(pad 376)\\n(domain 0 (share 500) (may))\\n(window 0 (length 50))\\n(run 1)'
    >>> page('small.plan', read(text)).startswith('<!DOCTYPE html>')
    True
"""
from .page import page, refused_page

__all__ = ["page", "refused_page"]
