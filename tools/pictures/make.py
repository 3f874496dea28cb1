#!/usr/bin/env python3
"""Makes the pictures of docs/pictures from the figures of bench/figures and from crates.txt.

    make.py [NAME..]          says which pictures aren't what their figures make them; status 1 where one isn't
    make.py --write [NAME..]  writes them
    make.py --png FOLDER ..   also draws each as PNG, light and dark (needs rsvg-convert), to be looked at
"""
import importlib
import os
import subprocess
import sys

sys.dont_write_bytecode = True
NAMES = ("speed", "growth", "workers", "rooms", "run", "threads")


def drawn(picture, path):
    """Draws a picture in each scheme, on the page that GitHub has in it."""
    for scheme, page in (("light", "#ffffff"), ("dark", "#0d1117")):
        made = picture.svg(scheme == "dark").encode()
        subprocess.run(["rsvg-convert", "-b", page, "-o", f"{path}.{scheme}.png"], input=made, check=True)


def text_of(path):
    if not os.path.exists(path):
        return None
    with open(path, encoding="utf-8") as file:
        return file.read()


def main():
    os.chdir(os.path.join(os.path.dirname(os.path.realpath(__file__)), "..", ".."))
    words = sys.argv[1:]
    folder = words[words.index("--png") + 1] if "--png" in words else None
    names = [it for it in words if it in NAMES] or NAMES
    wrong = [f"docs/pictures/{it}: no script makes it" for it in sorted(os.listdir("docs/pictures")) if it.removesuffix(".svg") not in NAMES]
    for name in names:
        picture, path = importlib.import_module(name).picture(), f"docs/pictures/{name}.svg"
        if "--write" in words:
            with open(path, "w", encoding="utf-8") as file:
                file.write(picture.svg())
        elif text_of(path) != picture.svg():
            wrong.append(f"{path} isn't what its figures make it: tools/pictures/make.py --write {name}")
        if folder:
            drawn(picture, f"{folder}/{name}")
    print("\n".join([*wrong, f"pictures: {len(names)}, {len(wrong)} wrong"]))
    sys.exit(1 if wrong else 0)


if __name__ == "__main__":
    main()
