

class Stuck(Exception):
    """Two operations have no case, or one has no place in the document."""


def after(a: Operation, b: Operation) -> Operation:
    form = transform(a, b)
    if form is None:
        raise Stuck(f"no case of the function fits {a.plain()} after {b.plain()}")
    return form


def executed(shared: SharedText, operation: Operation) -> SharedText:
    behind = apply(shared, operation)
    if behind is None:
        raise Stuck(f"{operation.plain()} has no place in {len(shared)} cells")
    return behind


def made_at(site: int, shared: SharedText, operation: Operation) -> SharedText:
    """The document after an operation that a user of the site makes."""
    if wanted(operation).site != site or operation.kind == "nop":
        raise ValueError(f"{operation.plain()} is no operation of site {site}")
    behind = apply(shared, operation)
    if behind is None:
        raise ValueError(f"{operation.plain()} has no place in {len(shared)} cells")
    return behind
