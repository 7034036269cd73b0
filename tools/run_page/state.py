"""The objects of a last state, as the page takes them: each kind by number, capabilities as they were printed."""


def objects_of(lines):
    found = {"gpts": {}, "slots": {}, "cappages": {}, "endpoints": {}, "processes": {}, "held": {}, "harts": {}}
    for line in lines:
        words = line.split()
        if words[0] == "gpt":
            found["gpts"][int(words[1])] = words[2:]
        elif words[0] in ("slot", "cap", "capreg"):
            kind = {"slot": "slots", "cap": "cappages", "capreg": "held"}[words[0]]
            found[kind].setdefault(int(words[1]), []).append((int(words[2]), words[3]))
        elif words[0] in ("endpoint", "process"):
            found[f"{words[0]}{'es' if words[0] == 'process' else 's'}"][int(words[1])] = words[2:]
        elif words[0] == "hart":
            found["harts"][int(words[1])] = words[2]
    return found
