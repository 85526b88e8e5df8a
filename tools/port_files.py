"""What the port's scripts share: files below crates/ are read, turned and written back if they changed."""
import os


def rewrite(root, crates, ending, turn):
    """Puts turn(text, path) in the place of each file with this ending, in these crates, or in all for None."""
    for crate in sorted(os.listdir(os.path.join(root, "crates"))) if crates is None else crates:
        top = os.path.join(root, "crates", crate)
        for folder, dirs, names in os.walk(top):
            if folder == top:
                # what the kit keeps
                dirs[:] = [d for d in dirs if d != "out"]
            for name in sorted(names):
                if name.endswith(ending):
                    path = os.path.join(folder, name)
                    with open(path, encoding="utf-8") as f:
                        text = f.read()
                    new = turn(text, path)
                    if new != text:
                        with open(path, "w", encoding="utf-8") as f:
                            f.write(new)
