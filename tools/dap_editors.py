"""What tools/try-dap tries with editors: Emacs debugs a program by dap-mode, and Kate by its plugin, on a screen that
nobody sees; Neovim reads its lines of the page, and the command of these is run by a client that is none; and
TypeScript compares all that the server has written with the types of its protocol."""
import contextlib
import json
import os
import pathlib
import re
import shutil
import signal
import subprocess
import textwrap
import time

from dap_trials import TOP, framed, read_frames

PAGE = (TOP / "docs/DEBUGGER.md").read_text()
PACKAGES = pathlib.Path("/usr/share/emacs/site-lisp/elpa")
TYPES = pathlib.Path("/usr/share/nodejs/@vscode/debugprotocol")
SOURCE = """\
total;
add(x) {
    extrn total;
    total =+ x;
}
main() {
    extrn total;
    auto c;
    while((c = getchar()) != '*n')
        add(c - '0');
    putchar('!');
    exit(total);
}
"""
# The lesson of the class, on whose line 8 the picture of Kate stands.
MARKS = """\
marks[4];
count;
read() {
    extrn marks, count;
    auto c;
    count = 0;
    while((c = getchar()) != '*n') {
        marks[count] = c - '0';
        count++;
    }
}
main() {
    extrn count;
    read();
    printn(count, 10);
    putchar('*n');
}
"""
SHOWN = (8, "415263\n")
SIZE = "1000x600"
EMACS = {
    "entry": [9, "main"], "given": "", "marked": 1, "breakpoint": [4, "add", "main"], "local": "x: 3",
    "typed": "40 '('", "again": [4, "add", "main"], "next": [5, "add", "main"], "back": [4, "add", "main"],
    "out": [10, "main"], "before": [4, "add", "main"], "end": "terminated",
    "written": "!the program has ended with status 12",
}


def lines_for(editor):
    """The lines that the page has for an editor."""
    part = PAGE.partition(f"**{editor}**")[2].partition("\n**")[0]
    lines = textwrap.dedent("".join(re.findall(r"^    .*\n", part, re.M)))
    return lines.replace("SHARE", str(TOP / "share"))


def seen_by(folder, editor, *words):
    """What an editor has seen of the source, once it has run with the lines of the page."""
    (folder / "x.b").write_text(SOURCE)
    (folder / "init").write_text(lines_for(editor))
    seen = folder / "seen"
    seen.unlink(missing_ok=True)
    given = {"HOME": str(folder), "FILE": str(folder / "x.b"), "INIT": str(folder / "init"), "SEEN": str(seen)}
    run = subprocess.run(words, cwd=folder, stdin=subprocess.DEVNULL, stdout=subprocess.PIPE, stderr=subprocess.STDOUT,
                         timeout=300, env={**os.environ, **given})
    return json.loads(seen.read_text()) if seen.exists() else {"said": run.stdout.decode(errors="replace")}


def try_emacs(folder, tried):
    emacs = shutil.which("emacs")
    if not emacs or not any(PACKAGES.glob("dap-mode-[0-9]*")):
        print("tools/try-dap: there is no Emacs with dap-mode here, so it was not tried")
        return
    paths = [word for it in sorted(PACKAGES.iterdir()) for word in ("-L", str(it))]
    words = ["-Q", "--batch", *paths, "-l", str(TOP / "tools/try_dap_emacs.el")]
    tried.expect("Emacs", EMACS, seen_by(folder, "Emacs", emacs, *words))
    print("dap: Emacs was tried, by dap-mode")


def try_adapter(folder, tried, editor, command, request):
    """Runs a command as an editor would, and begins the source."""
    given = {name: str(folder / "x.b") if it == "${file}" else it for name, it in request.items()}
    asked = (("initialize", {}), ("launch", given), ("configurationDone", {}), ("disconnect", {}))
    stream = b"".join(framed({"seq": at, "type": "request", "command": name, "arguments": it})
                      for at, (name, it) in enumerate(asked, 1))
    told = read_frames(subprocess.run(command, input=stream, stdout=subprocess.PIPE, timeout=60).stdout)
    stops = [it["body"]["reason"] for it in told if it.get("event") == "stopped"]
    tried.expect(f"{editor}: where its program stops", ["entry"], stops)


def try_neovim(folder, tried):
    neovim = shutil.which("nvim")
    if not neovim:
        print("tools/try-dap: there is no Neovim here, so its lines were not tried")
        return
    flags = ["--headless", "-u", "NONE", "-i", "NONE", "-n", "--cmd", f"set runtimepath^={TOP}/share/vim"]
    seen = seen_by(folder, "Neovim", neovim, *flags, "-c", f"luafile {TOP}/tools/try_dap_neovim.lua")
    tried.expect("Neovim: what its lines set", (["adapter", "configurations"], 1),
                 (sorted(seen), len(seen.get("configurations", []))))
    if "adapter" in seen:
        adapter = seen["adapter"]
        try_adapter(folder, tried, "Neovim", [adapter["command"], *adapter["args"]], seen["configurations"][0])


def kate_home(folder, text=SOURCE, given_input="345\n"):
    """A folder of settings for Kate, as the page says, with a source as target of its debugger, which leaves what it
    writes in the file told; and the environment for that."""
    home, source = folder / "home", folder / "x.b"
    settings, sessions = home / ".config/kate/gdbplugin", home / ".local/share/kate/sessions"
    for it in (settings, sessions, home / "run"):
        it.mkdir(parents=True)
    (home / "run").chmod(0o700)
    source.write_text(text)
    told = json.loads(lines_for("Kate"))
    adapter = told["dap"]["b"]
    command = " ".join(adapter["run"]["command"])
    (home / "server").write_text(f"#!/bin/sh\n{command} | tee {folder}/told\n")
    (home / "server").chmod(0o755)
    adapter["run"]["command"] = [str(home / "server")]
    adapter["configurations"]["launch"]["request"]["inputText"] = given_input
    (settings / "dap.json").write_text(json.dumps(told))
    target = {"debuggerKey": "b", "debuggerProfile": "launch", "target": "B", "variables": {"file": str(source)}}
    (sessions / "x.katesession").write_text(
        "[Kate Plugins]\nkategdbplugin=true\n\n[Open MainWindows]\nCount=1\n\n[MainWindow0]\nActive ViewSpace=0\n\n"
        "[Plugin:kategdbplugin:MainWindow:0]\nversion=5\ntargetCount=1\n"
        f"lastTarget=0\ntarget_0={json.dumps(target)}\n\n"
        f"[MainWindow0]\n{SIZE} screen: Height=600\n{SIZE} screen: Width=1000\n"
        "Kate-MDI-H-Splitter=0,640,300\nKate-MDI-Sidebar-1-LastSize=300\n"
        "Kate-MDI-ToolView-Locals and Stack-Position=1\nKate-MDI-ToolView-Locals and Stack-Visible=true\n")
    given = {"HOME": home, "XDG_CONFIG_HOME": home / ".config", "XDG_DATA_HOME": home / ".local/share",
             "XDG_RUNTIME_DIR": home / "run", "QT_QPA_PLATFORM": "xcb"}
    return {**os.environ, **{name: str(value) for name, value in given.items()}}


def written(folder, wanted, count):
    """What the server has written, once that is in it so often, or after half a minute."""
    file, end = folder / "told", time.monotonic() + 30
    while time.monotonic() < end and not (file.exists() and file.read_bytes().count(wanted) >= count):
        time.sleep(.1)
    return file.read_bytes() if file.exists() else b""


def debug_in_kate(folder, given, line=4, shot=None):
    """Has Kate set a breakpoint in a line, go on to it and step, by its keys; and gives what the server has told. A
    file for a picture gets one of the breakpoint."""
    def press(wanted, count, *keys):
        time.sleep(1)  # until Kate has seen what was told
        subprocess.run(["xdotool", "key", "--delay", "200", *keys], env=given, timeout=60)
        return written(folder, b'"%s"' % wanted, count)

    words = ["dbus-run-session", "--", "kate", "--start", "x", "--line", str(line), "x.b"]
    kate = subprocess.Popen(words, cwd=folder, env=given, stdin=subprocess.DEVNULL, stdout=subprocess.DEVNULL,
                            stderr=subprocess.DEVNULL, start_new_session=True)
    try:
        subprocess.run(["xdotool", "search", "--sync", "--name", "x.b", "mousemove", "300", "200"], env=given,
                       stdout=subprocess.DEVNULL, timeout=60)
        press(b"initialized", 1, "ctrl+F7")
        press(b"setBreakpoints", 1, "shift+F11")
        for count in (1, 2):
            press(b"stackTrace", count, "alt+d", "c")
        if shot is not None:
            for count in (3, 4):
                press(b"stackTrace", count, "alt+d", "c")
            time.sleep(2)  # until all is drawn
            subprocess.run(["import", "-window", "root", shot], env=given, timeout=60, check=True)
        return press(b"stackTrace", 3, "F9")
    finally:
        os.killpg(kate.pid, signal.SIGKILL)
        kate.wait()


@contextlib.contextmanager
def hidden_screen():
    """A screen that nobody sees, by its name."""
    screen = subprocess.Popen(["Xvfb", "-displayfd", "1", "-screen", "0", f"{SIZE}x24"], stdout=subprocess.PIPE,
                              stderr=subprocess.DEVNULL, text=True)
    try:
        yield f":{screen.stdout.readline().strip()}"
    finally:
        screen.kill()
        screen.wait()


def shoot_kate(folder, shot):
    """Writes a picture of Kate amid a run."""
    line, given_input = SHOWN
    with hidden_screen() as display:
        debug_in_kate(folder, {**kate_home(folder, MARKS, given_input), "DISPLAY": display}, line, shot)


def try_kate(folder, tried):
    if not all(map(shutil.which, ("kate", "dbus-run-session", "Xvfb", "xdotool"))):
        print("tools/try-dap: there is no Kate here, or no Xvfb and xdotool, so it was not tried")
        return
    with hidden_screen() as display:
        told = debug_in_kate(folder, {**kate_home(folder), "DISPLAY": display})
    told = read_frames(told)
    stops = [it["body"]["reason"] for it in told if it.get("event") == "stopped"]
    calls = [[frame["name"] for frame in it["body"]["stackFrames"]] for it in told if it.get("command") == "stackTrace"]
    tried.expect("Kate: where its program stops", ["entry", "breakpoint", "step"], stops)
    tried.expect("Kate: the calls there", [["main"], ["add", "main"], ["add", "main"]], calls)
    tried.expect("Kate: what is refused", [], [it["message"] for it in told if not it.get("success", True)])
    print("dap: Kate was tried, by its plugin")


def try_attributes(tried):
    """The page has each member of a launch configuration that VS Code offers."""
    told = json.loads((TOP / "share/vscode/package.json").read_text())["contributes"]["debuggers"][0]
    rows = re.findall(r"^\| (`.*?) \|", PAGE, re.M)
    tried.expect("VS Code: the members of a launch configuration", sorted(re.findall(r"`(\w+)`", " ".join(rows))),
                 sorted(told["configurationAttributes"]["launch"]["properties"]))


def type_of(message):
    """The type of the protocol that a message of the server has."""
    name = message.get("event") or message["command"]
    kind = "Event" if message["type"] == "event" else "Response"
    return f"{name[:1].upper()}{name[1:]}{kind}" if message.get("success", True) else "ErrorResponse"


def try_types(folder, tried, told):
    compiler = shutil.which("tsc")
    if not compiler or not TYPES.is_dir():
        print("tools/try-dap: there are no types of the protocol here, so they were not compared")
        return
    rows = [f"export const m{at}: DebugProtocol.{type_of(it)} = {json.dumps(it)};\n" for at, it in enumerate(told)]
    (folder / "told.ts").write_text("".join([f'import {{ DebugProtocol }} from "{TYPES}/lib/debugProtocol";\n', *rows]))
    words = ["--strict", "--noEmit", "--target", "es2020", "told.ts"]
    run = subprocess.run([compiler, *words], cwd=folder, stdout=subprocess.PIPE, text=True, timeout=300)
    tried.expect("the types of the protocol", (0, ""), (run.returncode, run.stdout))
    print(f"dap: the types of {len(told)} answers and events were compared")


def try_editors(folder, tried, told):
    for each in (try_emacs, try_neovim, try_kate):
        each(folder, tried)
    try_attributes(tried)
    try_types(folder, tried, told)
