"""Nagios's resolved objects: the file objects.cache, which Nagios writes when it starts, or objects.precache, which `nagios -vp`
writes. Templates, groups, wildcards and exclusions are resolved there. `nagios-inventory` and `nagios-feed` read it by this.

A byte is a character of Latin-1 here, so a name is written as the bytes that were read, whatever their encoding.
"""
import os
import re

# No line that Nagios writes is longer: a group of as many objects as an inventory may have, with names of 2,000 bytes.
LONGEST_LINE = 16 << 20

# The directives that name an object, by its kind; other kinds of object are not kept.
KEYS = {
    "timeperiod": ("timeperiod_name",),
    "contact": ("contact_name",),
    "contactgroup": ("contactgroup_name",),
    "host": ("host_name",),
    "hostgroup": ("hostgroup_name",),
    "service": ("host_name", "service_description"),
    "servicegroup": ("servicegroup_name",),
    "hostescalation": ("host_name",),
    "serviceescalation": ("host_name", "service_description"),
    "hostdependency": ("dependent_host_name",),
    "servicedependency": ("dependent_host_name", "dependent_service_description"),
}
# An object may have any number of these.
REPEATED = ("hostescalation", "serviceescalation", "hostdependency", "servicedependency")
# Directives of a definition that is not resolved.
UNRESOLVED = ("use", "name", "register")


class Fault(Exception):
    """What is wrong with an input, in words."""


class Object(dict):
    """The directives of a definition, its kind, the line that it begins on and, of a group, the keys of its members."""

    def __init__(self, kind, line):
        super().__init__()
        self.kind = kind
        self.line = line
        self.members = []

    def key(self):
        return tuple(self.needed(it) for it in KEYS[self.kind])

    def needed(self, directive):
        if not self.get(directive):
            raise Fault(f"line {self.line}: the {self.kind} has no {directive}")
        return self[directive]

    def names(self, directive):
        """The items of a list with commas."""
        return [it.strip(" \t") for it in self.get(directive, "").split(",") if it.strip(" \t")]

    def shown(self):
        """The contact, host or service that the definition is of."""
        key = self.key()
        return f"{'service' if len(key) == 2 else 'contact' if self.kind == 'contact' else 'host'} {';'.join(key)}"


def lines(path):
    """The lines of a file with their numbers, without the blanks around them; empty ones and comments are skipped."""
    with open(path, encoding="latin-1", newline="\n") as file:
        at = 0
        while line := file.readline(LONGEST_LINE):
            at += 1
            if len(line) == LONGEST_LINE:
                raise Fault(f"line {at}: too long")
            line = line.strip(" \t\r\n")
            if line and line[0] not in "#;":
                yield at, line


def definitions(path):
    """The definitions of a file, in order."""
    now, at = None, 0
    for at, line in lines(path):
        if now is None:
            head = re.fullmatch(r"define[ \t]+([a-z]+)[ \t]*\{", line)
            if not head:
                raise Fault(f"line {at}: no definition begins here")
            now = Object(head[1], at)
        elif line == "}":
            yield now
            now = None
        else:
            name, value = re.match(r"([^ \t]+)[ \t]*(.*)", line).groups()
            if name in UNRESOLVED:
                raise Fault(f"line {at}: {name}: the objects are not resolved")
            if now.kind in KEYS:
                now[name] = value
    if now is not None:
        raise Fault(f"line {at}: the definition does not end")


class Site:
    """The objects of a file: `named` by their kind and key, and `all` by their kind, in the order of the file."""

    def __init__(self, path):
        self.named = {kind: {} for kind in KEYS}
        self.all = {kind: [] for kind in KEYS}
        for it in definitions(path):
            if it.kind in KEYS:
                if it.kind not in REPEATED and self.named[it.kind].setdefault(it.key(), it) is not it:
                    raise Fault(f"line {it.line}: a second {it.kind} {';'.join(it.key())}")
                self.all[it.kind].append(it)
        if not self.all["host"]:
            raise Fault("no host is defined")
        for kind in ("service", "hostescalation", "serviceescalation"):
            for it in self.all[kind]:
                self.defined("host", it.key()[:1], it)
        for it in self.all["serviceescalation"]:
            self.defined("service", it.key(), it)
        for kind in ("contactgroup", "hostgroup", "servicegroup"):
            for it in self.all[kind]:
                it.members = self.keys_of(it)
        self.services_of = {key[0]: [] for key in self.named["host"]}
        for host, name in self.named["service"]:
            self.services_of[host].append((host, name))

    def defined(self, kind, key, by):
        """The object of this name that a definition refers to."""
        if key not in self.named[kind]:
            raise Fault(f"line {by.line}: no {kind} {';'.join(key)} is defined")
        return self.named[kind][key]

    def keys_of(self, group):
        """The keys of the members that a group of contacts, hosts or services names, each once."""
        kind, names = group.kind.removesuffix("group"), group.names("members")
        if kind == "service":
            if len(names) % 2:
                raise Fault(f"line {group.line}: a host without a service among the members")
            keys = zip(names[::2], names[1::2])
        else:
            keys = ((it,) for it in names)
        return list(dict.fromkeys(self.defined(kind, it, group).key() for it in keys))

    def contacts(self, of):
        """The names of the contacts of an object or an escalation, those of its groups included, each once."""
        keys = [self.defined("contact", (it,), of).key() for it in of.names("contacts")]
        for name in of.names("contact_groups"):
            keys += self.defined("contactgroup", (name,), of).members
        return list(dict.fromkeys(key[0] for key in keys))


def naming(path, reader):
    """What a reader makes of a file; a fault of it, or of the system, names the file."""
    shown = os.fsencode(path).decode("latin-1")
    try:
        return reader(path)
    except Fault as fault:
        raise Fault(f"{shown}: {fault}") from fault
    except OSError as error:
        raise Fault(f"open {shown}: {error.strerror}") from error


def say(script, text):
    """A line on the error stream, which may be closed."""
    try:
        os.write(2, f"{script}: {text}\n".encode("latin-1", "replace"))
    except OSError:
        pass
