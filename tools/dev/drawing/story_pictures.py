"""The pictures that tell a story. Their words are those of the documents that show them."""
from drawing.svg import Picture


def the_story() -> Picture:
    picture = Picture(860, 336, "Bob reads what was written after he was removed",
                      "A line of time. At 5 Alice may edit a plan and Bob may view it. At 10 Bob is removed. At 12 Alice saves version v2. Then Bob asks for v2, "
                      "and the service answers yes, from what it knew at 9. It did not look at his removal. With the zookie of v2 it would have had to look at 12.")
    at = {5: 96, 9: 262, 10: 392, 12: 562}
    asked, axis = 752, 172
    picture.text(24, 30, "Bob reads what was written after he was removed", "head")
    picture.box(at[9], axis - 14, at[12] - at[9], 28, (), "bad")
    picture.text((at[10] + at[12]) / 2, axis + 30, "not looked at", "bad", "middle")
    picture.line([(40, axis), (830, axis)])
    picture.text(822, axis + 20, "time", "soft", "end")
    for time, x in at.items():
        picture.circle(x, axis, 6, "bad" if time in (9, 10) else "main" if time == 12 else "")
        picture.text(x, axis + 30, str(time), "head", "middle")
    picture.circle(asked, axis, 6)
    picture.box(at[5] - 68, 74, 136, 48, ["Alice may edit,", "Bob may view"])
    picture.box(at[10] - 76, 74, 152, 48, ["Bob is removed", "a change of access"], "bad", "head")
    picture.box(at[12] - 76, 74, 152, 48, ["Alice saves v2", "its zookie means 12"], "main", "head")
    picture.box(asked - 78, 74, 156, 48, ["Bob asks for v2", "the service: yes"], "bad", "head")
    for x in (at[5], at[10], at[12], asked):
        picture.line([(x, 122), (x, axis - 7)], has_tip=False)
    picture.line([(asked, axis + 7), (asked, 292), (at[9], 292), (at[9], axis + 40)], "bad")
    picture.text(at[9] + 14, 312, "answered from what the service knew at 9: Bob is let in", "bad")
    picture.line([(asked - 14, axis + 5), (asked - 14, 254), (at[12], 254), (at[12], axis + 40)], "good dash")
    picture.text(asked - 22, 272, "with v2's zookie: 12 or later", "good", "end")
    return picture


def way_of_a_line() -> Picture:
    picture = Picture(860, 512, "The way of a line, and of a record",
                      "Bytes of the trace are cut into lines and read as JSON, and become rules, commits or entries. Bytes of the evidence become steps, which are judged "
                      "one by one. The findings of both make the report.")
    picture.text(24, 30, "A line of the trace", "head")
    picture.box(24, 44, 150, 48, ["bytes", "of the trace"])
    picture.line([(174, 68), (214, 68)])
    picture.box(214, 44, 190, 48, ["json_lines", "cuts lines, reads JSON"], "main", "code")
    picture.line([(404, 68), (444, 68)])
    picture.box(444, 44, 200, 48, ["trace_lines", "takes a line by its kind"], "main", "code")
    for x, kind in ((120, "namespace"), (350, "commit"), (610, "check, content")):
        picture.line([(544, 92), (544, 108), (x, 108), (x, 150)])
        picture.text(x + 8, 136, kind, "soft code")
    picture.box(24, 150, 192, 48, ["namespaces", "rules; strata checks them"], "", "code")
    picture.box(250, 150, 200, 48, ["version_chains", "the tuples at each time"], "", "code")
    picture.box(510, 150, 200, 48, ["an entry", "goal, snapshot, reply, tokens"])
    picture.line([(610, 198), (610, 236)])
    picture.box(510, 236, 200, 48, ["token_order", "F1 to F6"], "main", "code")
    picture.text(24, 330, "A record of evidence", "head")
    picture.box(24, 344, 100, 48, ["bytes", "of evidence"])
    picture.line([(124, 368), (152, 368)])
    picture.box(152, 344, 120, 48, ["json_lines", "reads JSON"], "main", "code")
    picture.line([(272, 368), (300, 368)])
    picture.box(300, 344, 190, 48, ["evidence_check", "goes through the steps"], "main", "code")
    picture.line([(490, 368), (518, 368)])
    picture.box(518, 344, 192, 48, ["judgement", "one step, by one rule"], "main", "code")
    picture.line([(614, 344), (614, 308), (230, 308), (230, 236), (120, 236), (120, 199)], "dash")
    picture.line([(230, 236), (350, 236), (350, 199)], "dash")
    picture.text(240, 300, "reads rules and tuples at the snapshot", "soft")
    picture.line([(395, 392), (395, 430)])
    picture.text(403, 416, "F7 to F10", "soft")
    picture.box(300, 430, 190, 48, ["findings", "the text of the report"], "main", "code")
    picture.line([(710, 260), (800, 260), (800, 454), (491, 454)])
    picture.line([(300, 454), (240, 454)])
    picture.box(60, 430, 180, 48, ["audit", "writes it, and the verdict"], "main", "code")
    return picture


def parts() -> Picture:
    picture = Picture(860, 336, "An audit in parts",
                      "A trace is cut by object into three traces with the same lines. The entries of other objects are blank in a part; rules and commits stand in every one. "
                      "Each part is audited by itself, and the reports are merged by line.")
    lines = [("rules", ""), ("commit", ""), ("check of doc:a", "main"), ("check of doc:b", "good"), ("commit", ""), ("check of doc:c", "bad"), ("check of doc:a", "main")]
    heads = ["the trace", "part 1", "part 2", "part 3"]
    kinds = [None, "main", "good", "bad"]
    for column, (head, kept) in enumerate(zip(heads, kinds)):
        x = 24 + 172 * column + (36 if column else 0)
        picture.text(x, 30, head, "head")
        for place, (words, kind) in enumerate(lines):
            is_there = kept is None or kind in ("", kept)
            picture.box(x, 44 + 30 * place, 150, 24, [words] if is_there else [], kind if is_there else "dash", "soft")
    picture.line([(180, 146), (226, 146)])
    picture.text(24, 291, "1 the trace is cut by object", "soft")
    picture.text(24, 320, "A dashed box is a blank line: so each line keeps its number, and each finding names the line of the whole trace.", "soft")
    for x in (307, 479, 651):
        picture.line([(x, 254), (x, 272)])
    picture.box(232, 274, 494, 26, ["2 each part is audited, on any machine; 3 the reports are merged by line"], "", "soft")
    picture.line([(726, 287), (752, 287)])
    picture.text(758, 284, "the report", "head")
    picture.text(758, 302, "of the whole", "head")
    return picture


def windows() -> Picture:
    picture = Picture(860, 322, "An audit in windows",
                      "A log without an end is cut in time. Each window is audited behind a state that the one before left: the stored tuples, the rules, the versions that may "
                      "still be named, and the entries that wait for a later commit.")
    picture.line([(24, 60), (836, 60)])
    picture.text(836, 48, "time", "soft", "end")
    picture.text(24, 30, "The log", "head")
    for place, name in enumerate(("Monday", "Tuesday", "Wednesday")):
        x = 40 + 270 * place
        picture.box(x, 72, 230, 30, ["lines of " + name], "main")
        picture.line([(x + 150, 102), (x + 150, 148)])
        picture.box(x + 70, 148, 160, 48, ["audit", "of this window"], "", "head")
        picture.line([(x + 150, 196), (x + 150, 226)])
        picture.box(x + 70, 226, 160, 30, ["what is found in it"], "good")
        if place < 2:
            picture.line([(x + 230, 172), (x + 340, 172)], "main")
            picture.text(x + 284, 164, "state", "main", "middle")
    picture.text(24, 284, "The state: the stored tuples, the latest commits, the rules, the versions that may still be named,", "soft")
    picture.text(24, 302, "and the entries that wait for a later commit. All days together tell what one audit of the whole log tells.", "soft")
    return picture


def way_to_a_verdict() -> Picture:
    picture = Picture(860, 340, "From requests to a verdict",
                      "The application asks the recorder in place of the service. The recorder passes each request on, reads rules and changes, and writes a log. The "
                      "import makes a trace of the log, which new_enemy audits; ne report says what of its report mattered. ne monitor does the same while the log grows.")
    picture.text(24, 30, "From requests to a verdict", "head")
    picture.box(24, 44, 166, 48, ["your application", "names what it shows"])
    picture.line([(190, 68), (230, 68)])
    picture.box(230, 44, 180, 48, ["ne record", "passes each request on"], "main", "code")
    picture.line([(410, 68), (450, 68)])
    picture.box(450, 44, 150, 48, ["the service", "OpenFGA, SpiceDB"])
    picture.line([(525, 92), (525, 118), (370, 118), (370, 93)], "dash")
    picture.text(534, 122, "rules and changes", "soft")
    picture.line([(280, 92), (280, 160)])
    picture.box(205, 160, 150, 48, ["the log", "files of JSON lines"])
    picture.line([(355, 184), (395, 184)])
    picture.box(395, 160, 130, 48, ["ne import", "asks for the order"], "main", "code")
    picture.line([(525, 184), (560, 184)])
    picture.box(560, 160, 126, 48, ["the trace", "users are numbers"])
    picture.line([(686, 184), (721, 184)])
    picture.box(721, 160, 115, 48, ["new_enemy", "the audit"], "good", "code")
    picture.line([(778, 208), (778, 246)])
    picture.box(656, 246, 180, 48, ["the report", "what was wrong, and where"])
    picture.line([(656, 270), (616, 270)])
    picture.box(446, 246, 170, 48, ["ne report", "did it matter, and why"], "main", "code")
    picture.line([(280, 208), (280, 246)])
    picture.box(205, 246, 190, 48, ["ne monitor", "the same, while it grows"], "main", "code")
    picture.text(24, 322, "Green is proved, blue is tested. ne day does import, audit and report for each day's log.", "soft")
    return picture
