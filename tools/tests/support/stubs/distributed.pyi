# What the tools call of the library, of which mypy would read some 230 modules. The tests of dask's workers call it.
class Worker:
    id: str

def get_worker() -> Worker: ...
