"""What pages show: their indented blocks, and those of them that show commands being typed."""

import re
import subprocess

MARK = "-- next --"


def indented_blocks(text):
    """The indented blocks of a page, without the indent."""
    return [re.sub("(?m)^ {4}", "", block) for block in re.findall(r"(?m)(?:^ {4}.*\n)+", text)]


def typed_blocks(text):
    """The indented blocks with commands: each a list of commands with the lines shown behind them."""
    blocks = []
    for block in indented_blocks(text):
        if block.startswith("$ "):
            blocks.append([])
            for line in block.splitlines():
                if line.startswith("$ "):
                    blocks[-1].append((line[2:], []))
                else:
                    blocks[-1][-1][1].append(line)
    return blocks


def printed_by(block, folder, variables, named="", address=""):
    """What the commands of a block print, one after the other, in a shell in this folder. A name in them may stand for an address."""
    script = "".join(f"{command}\necho '{MARK}'\n" for command, _ in block)
    done = subprocess.run(
        ["bash"], input=script.replace(named, address) if named else script, env=variables, cwd=folder, stdout=subprocess.PIPE,
        stderr=subprocess.STDOUT, encoding="utf-8", check=False,
    )
    printed = done.stdout.replace(address, named) if named else done.stdout
    return printed.split(f"{MARK}\n")[:-1]
