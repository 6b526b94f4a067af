"""The version of the package, and of the program that it is made for."""

VERSION = "1.0.0"
