"""Sums the columns of numbers of an encrypted CSV file, by Dask on processes of this machine:

    dask_sum.py KEY_FILE FILE

KEY_FILE holds 32 bytes. Each task opens the chunks of its block, the next ones to find a line's end,
and the last one. If it needs a damaged chunk, it fails with the file and the chunk's number."""

import sys

import dask.dataframe
import dask.distributed

import agefile
import agefile.fsspec


def table(name, identities, blocksize=1 << 24):
    """The table of an encrypted file, in blocks of so many bytes of its plaintext."""
    options = {"identities": identities}
    return dask.dataframe.read_csv(f"age://{name}", storage_options=options, blocksize=blocksize)


def sums(name, identities, workers=None, blocksize=1 << 24):
    """The sum of each column, by so many processes."""
    with dask.distributed.LocalCluster(n_workers=workers, threads_per_worker=1, dashboard_address=None) as cluster:
        with dask.distributed.Client(cluster):
            return table(name, identities, blocksize).sum().compute()


if __name__ == "__main__":
    with open(sys.argv[1], "rb") as file:
        print(sums(sys.argv[2], agefile.Key(file.read())))
