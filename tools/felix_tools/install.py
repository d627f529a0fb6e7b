"""tools/install: the built programs, the tools and the man pages under a folder."""
import os
import shutil
import subprocess

from felix_tools import program
from felix_tools.options import tool_parser
from felix_tools.reading import InputError
from felix_tools.start import answered
from felix_tools.version import FORMATS, INSTALLED, VERSION

DESCRIPTION = """\
Copies the built programs, the tools and the man pages under a folder, and tells each file.

  tools/install /usr/local
  tools/install package/usr

Programs go to PREFIX/bin under their names, the tools as felix-ask, felix-lines and so on, and the plugin of kubectl as
kubectl-felix, which `kubectl felix` finds where PREFIX/bin is on the PATH. What they are made of goes to
PREFIX/lib/felix, man pages of all programs to PREFIX/share/man. The changes, the schema of --json, and VERSION, which
tells the release and the formats of JSON, go to PREFIX/share/doc/felix. No file names the folder, so it may be moved.
Nothing is copied unless each program is built from the sources that stand here. `felix-ask --version` says which they
are.

Status: 0 done, 2 a file can't be written, 4 some program isn't built, 5 the output can't be written."""

TOOLS = ("apply", "ask", "check", "cluster", "diff", "found", "growth", "hostile", "limits", "lines", "picture",
         "refuse-memory")
PLUGIN = "kubectl-felix"
# What tells those who use it what changed, and what --json writes.
PAGES = ("CHANGELOG.md", "docs/answers.schema.json")
MODULES = os.path.dirname(os.path.abspath(__file__))
SCRIPTS = os.path.dirname(MODULES)


def main(words):
    made = tool_parser("install", DESCRIPTION)
    made.add_argument("prefix", metavar="PREFIX", help="the folder; it is made where it isn't there")
    return answered("install", install, made.parse_args(words))


def install(options):
    paths = [(one.name, built(one)) for one in program.PROGRAMS if is_of_these_sources(one)]
    version = version_of_sources()
    try:
        for name, path in paths:
            copy(path, os.path.join(options.prefix, "bin", name), 0o755)
        install_tools(options.prefix, version)
        install_pages(options.prefix, version)
    except OSError as fault:
        raise InputError("%s: %s" % (fault.filename or options.prefix, fault.strerror))
    print("version %s" % version)
    return 0


def is_of_these_sources(one):
    return os.path.isdir(os.path.join(program.TOP, "crates", one.crate))


def built(one):
    if not program.is_built(one):
        raise program.ProgramError("{0} isn't built from these sources: ./{0} proves and builds it".format(one.name))
    return program.built_path(one)


def version_of_sources():
    """The version, and the commit that stands here, if git tells one."""
    try:
        asked = ["git", "-C", program.TOP, "describe", "--always", "--dirty", "--abbrev=12", "--exclude=*"]
        done = subprocess.run(asked, stdout=subprocess.PIPE, stderr=subprocess.DEVNULL, universal_newlines=True)
    except OSError:
        return VERSION
    return "%s (commit %s)" % (VERSION, done.stdout.strip()) if done.returncode == 0 else VERSION


def install_tools(prefix, version):
    folder = os.path.join(prefix, "lib", "felix")
    modules = os.path.join(folder, os.path.basename(MODULES))
    for name in sorted(os.listdir(MODULES)):
        if name.endswith((".py", ".c")):
            copy(os.path.join(MODULES, name), os.path.join(modules, name), 0o644)
    write(os.path.join(modules, os.path.basename(INSTALLED)), version + "\n")
    for name in TOOLS:
        copy(os.path.join(SCRIPTS, name), os.path.join(folder, name), 0o755)
        link(os.path.join("..", "lib", "felix", name), os.path.join(prefix, "bin", "felix-" + name))
    copy(os.path.join(SCRIPTS, PLUGIN), os.path.join(folder, PLUGIN), 0o755)
    link(os.path.join("..", "lib", "felix", PLUGIN), os.path.join(prefix, "bin", PLUGIN))


def install_pages(prefix, version):
    for name in (one.name + ".1" for one in program.PROGRAMS):
        copy(os.path.join(program.TOP, "docs", "man", name), os.path.join(prefix, "share", "man", "man1", name), 0o644)
    folder = os.path.join(prefix, "share", "doc", "felix")
    for path in PAGES:
        copy(os.path.join(program.TOP, path), os.path.join(folder, os.path.basename(path)), 0o644)
    write(os.path.join(folder, "VERSION"), "felix %s\n%s\n" % (version, FORMATS))


# ---- files, each of which is whole at every moment, also where another stood

def copy(source, target, mode):
    os.makedirs(os.path.dirname(target), exist_ok=True)
    shutil.copyfile(source, target + ".new")
    finish(target, mode)


def write(target, text):
    with open(target + ".new", "w", encoding="utf-8") as file:
        file.write(text)
    finish(target, 0o644)


def finish(target, mode):
    os.chmod(target + ".new", mode)
    os.replace(target + ".new", target)
    print(target)


def link(source, target):
    if os.path.islink(target + ".new"):
        os.remove(target + ".new")
    os.symlink(source, target + ".new")
    os.replace(target + ".new", target)
    print(target)
