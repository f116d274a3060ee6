"""What a user's hands do in a page: press, drag, scroll, type, choose a file and drop one."""

LEFT = 1  # the bit of the left button
SHIFT = 8  # the bit of the key
KEYS = {
    "ArrowLeft": 37,
    "ArrowUp": 38,
    "ArrowRight": 39,
    "ArrowDown": 40,
    "Delete": 46,
    "Tab": 9,
    "+": 107,
    "-": 109,
}
CODES = {"+": "NumpadAdd", "-": "NumpadSubtract"}
WRITTEN = ("+", "-")  # keys that write a letter


def mouse(tab, kind, place, **more):
    tab.tell("Input.dispatchMouseEvent", type=kind, x=place[0], y=place[1], **more)


def press(tab, place):
    mouse(tab, "mouseMoved", place)
    mouse(tab, "mousePressed", place, button="left", buttons=LEFT, clickCount=1)


def move(tab, place):
    """Moves the mouse with its button down."""
    mouse(tab, "mouseMoved", place, button="left", buttons=LEFT)


def release(tab, place):
    mouse(tab, "mouseReleased", place, button="left", clickCount=1)


def click(tab, place):
    press(tab, place)
    release(tab, place)


def between(start, end, steps):
    """Places on the straight way to the end, which is the last of them."""
    return [tuple(a + (b - a) * k / steps for a, b in zip(start, end)) for k in range(1, steps + 1)]


def drag(tab, start, end, steps=6):
    press(tab, start)
    for place in between(start, end, steps):
        move(tab, place)
    release(tab, end)


def wheel(tab, place, turned):
    """Turns the wheel: downward, toward the user, where the number is positive."""
    mouse(tab, "mouseWheel", place, deltaX=0, deltaY=turned)


def key(tab, name, shift=False):
    """Presses a key once."""
    told = dict(key=name, code=CODES.get(name, name), windowsVirtualKeyCode=KEYS[name], modifiers=SHIFT if shift else 0)
    written = {"text": name} if name in WRITTEN else {}
    tab.tell("Input.dispatchKeyEvent", type="keyDown", **told, **written)
    tab.tell("Input.dispatchKeyEvent", type="keyUp", **told)


def write(tab, text):
    """Writes a text where the cursor is."""
    tab.tell("Input.insertText", text=text)


def choose_files(tab, expression, *paths):
    """Hands files to the file input that the expression is."""
    thing = tab.evaluate(expression, by_value=False)["objectId"]
    tab.tell("DOM.setFileInputFiles", objectId=thing, files=[str(path) for path in paths])


def drop_file(tab, place, path):
    """Drags a file from outside over the page and lets it go there. The browser opens it itself where the page does not take it."""
    for kind in ("dragEnter", "dragOver", "drop"):
        data = {"items": [], "files": [str(path)], "dragOperationsMask": 1}
        tab.tell("Input.dispatchDragEvent", type=kind, x=place[0], y=place[1], data=data)


def touch_drag(tab, start, end, steps=6):
    """Drags by a finger."""
    tab.tell("Input.dispatchTouchEvent", type="touchStart", touchPoints=[{"x": start[0], "y": start[1]}])
    for x, y in between(start, end, steps):
        tab.tell("Input.dispatchTouchEvent", type="touchMove", touchPoints=[{"x": x, "y": y}])
    tab.tell("Input.dispatchTouchEvent", type="touchEnd", touchPoints=[])
