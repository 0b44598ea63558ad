#!/usr/bin/env python3
"""The work of lock_bench with Python's tomllib: lock_peer.py read|print FILE

Reads the lock of a file, or prints it by joining texts, since the library writes no TOML; prints the microseconds.
"""
import sys
import time
import tomllib


def quoted(text):
    return f"'{text}'"


def file_text(file):
    digest = quoted(file["hashes"]["sha256"])
    name, url = quoted(file["name"]), quoted(file["url"])
    return f"{{name = {name}, url = {url}, size = {file['size']}, hashes = {{sha256 = {digest}}}}}"


def package_text(package):
    lines = ["", "[[packages]]", f"name = {quoted(package['name'])}", f"version = {quoted(package['version'])}"]
    if "requires-python" in package:
        lines.append(f"requires-python = {quoted(package['requires-python'])}")
    if "dependencies" in package:
        names = ", ".join(f"{{name = {quoted(needed['name'])}}}" for needed in package["dependencies"])
        lines.append(f"dependencies = [{names}]")
    if "sdist" in package:
        lines.append(f"sdist = {file_text(package['sdist'])}")
    if "wheels" in package:
        lines.append(f"wheels = [{', '.join(map(file_text, package['wheels']))}]")
    return lines


def lock_text(lock):
    """The text of a lock. No text in it holds what has to be escaped."""
    lines = [
        f"lock-version = {quoted(lock['lock-version'])}",
        f"environments = [{', '.join(map(quoted, lock['environments']))}]",
        f"created-by = {quoted(lock['created-by'])}",
    ]
    for package in lock["packages"]:
        lines += package_text(package)
    lines += ["", "[tool.reqlock]", f"snapshot = {quoted(lock['tool']['reqlock']['snapshot'])}", ""]
    return "\n".join(lines)


def main():
    with open(sys.argv[2], encoding="utf-8") as file:
        text = file.read()
    start = time.perf_counter()
    lock = tomllib.loads(text)
    reading = time.perf_counter() - start
    start = time.perf_counter()
    printed = lock_text(lock)
    printing = time.perf_counter() - start
    if printed != text:
        sys.exit("lock_peer: another text is printed")
    print(round({"read": reading, "print": printing}[sys.argv[1]] * 10**6))


if __name__ == "__main__":
    main()
