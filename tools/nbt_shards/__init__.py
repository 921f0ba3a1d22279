"""What nbt-dask is made of."""
