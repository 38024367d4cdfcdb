"""Routers in a ring, eight where nothing else is said, and the files of a run over them."""

import os

ROUTERS = 8


def write_network(folder, lines, routers=ROUTERS):
    """The topology and a script of these lines: link li goes from interface 2 of mi to interface 3 of the next router, and
    each router has an edge at interface 1."""
    with open(os.path.join(folder, "topology.toml"), "w") as out:
        names = ", ".join(f'"m{i}"' for i in range(routers))
        out.write(f"routers = [{names}]\n")
        for i in range(routers):
            out.write(f'[[link]]\nname = "l{i}"\nends = ["m{i}:2", "m{(i + 1) % routers}:3"]\n')
        for i in range(routers):
            out.write(f'[[edge]]\nat = "m{i}:1"\n')
    with open(os.path.join(folder, "script"), "w") as out:
        out.writelines(f"take m{i} all\n" for i in range(routers))
        out.writelines(f"{line}\n" for line in lines)


def write_feeds(folder, count, frame, routers=ROUTERS):
    """Feeds of so many frames, dealt out to the routers in turn; `frame` gives the bytes of one by its number."""
    for i in range(routers):
        with open(os.path.join(folder, f"m{i}.fpm"), "wb") as out:
            out.writelines(frame(j) for j in range(i, count, routers))


def words(folder, routers=ROUTERS):
    """The words of the run, behind `run`."""
    feeds = [f"m{i}={folder}/m{i}.fpm" for i in range(routers)]
    return [os.path.join(folder, "topology.toml"), *feeds, f"@{folder}/script"]
