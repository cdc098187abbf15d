"""The files of a release, made of the proved build and held against it."""
