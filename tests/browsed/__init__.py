"""Boards played against bin/recorder.html in a browser, and the cases that the modules of web/ share with live/."""

from played import TOP  # which puts tools/ on the path

__all__ = ["TOP"]
