"""A page for the shift: the registers of a running hub in a browser. `python -m ipbus.page` serves it."""
