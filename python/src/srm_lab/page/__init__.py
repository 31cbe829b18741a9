"""A run as one self-contained HTML page, which plays it: network, members, losses, rows and tables.

`command` is the command line, `document` what of a run stands in the page, `html` the page's file, and `assets` its
HTML, CSS and JavaScript.
"""
