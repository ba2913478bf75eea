# generated: version of the package, one line
__version__ = "0.7.0"
