"""The server of the studio: it runs commands of `unison` for a page in a browser of this machine, and for nobody else."""
