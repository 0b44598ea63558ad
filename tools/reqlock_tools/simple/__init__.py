"""The way from the Simple API of a package index (PEP 503, 691 and 700) to the packages of a snapshot."""
