"""A module of Dask's name for tests/in-parts."""
