#!/usr/bin/env python3
"""The numbers of a generated script's run.

    summary.py START N

prints what `mdserve gen START N` has to print. It makes the files and the script as `generate.py` does, and follows the
script with a model of its own: a set of paths for each client's answer, compared afresh at each poll and enable. It shares
nothing with the server's code.
"""
import sys

from generate import Draws, file, script

def fields(path, content):
    """The ending, the words and the rating of a generated file."""
    ending = path.rsplit(".", 1)[1]
    if ending == "txt":
        return ending, content.split(" "), None
    if ending == "json":
        return ending, [content.split('"')[3]], int(content.rstrip("}").rsplit(":", 1)[1])
    return ending, content.split("\n")[1].split(","), None


def is_hit(client, path, content):
    """Whether the file is a hit of the client's query."""
    ending, words, rating = fields(path, content)
    return [
        ending == "txt",
        ending == "json" and rating >= 3,
        ending != "txt" and words[0] == "red",
        "budget" in words,
        ending != "json",
        8 <= len(content) <= 20,
        ending == "csv" and words[0] != "tax",
        True,
    ][client]


class Query:
    """A client's live query: what it holds, how many disables are open, and how many changes a notice waits for."""

    def __init__(self, client):
        self.client = client
        self.held = set()
        self.disables = 0
        self.update = 5 if client >= 4 else 1

    def answer(self, rows):
        return {path for path, content in rows.items() if is_hit(self.client, path, content)}


class Server:
    def __init__(self):
        self.rows = {}
        self.queries = {}
        self.events = self.version = self.notices = self.added = self.removed = 0

    def commit(self):
        self.events += 2  # the draw and the commit
        self.version += 1

    def notify(self, query, answer):
        self.notices += 1
        self.added += len(answer - query.held)
        self.removed += len(query.held - answer)
        query.held = answer

    def poll(self, query):
        answer = query.answer(self.rows)
        if query.disables == 0 and len(answer ^ query.held) >= query.update:
            self.notify(query, answer)

    def enable(self, query):
        if query.disables > 0:
            query.disables -= 1
            if query.disables == 0:
                self.notify(query, query.answer(self.rows))

    def ask(self, client, verb):
        self.events += 1
        if verb == "query":
            self.queries[client] = Query(client)
            return
        query = self.queries[client]
        if verb == "gather":
            query.held = query.answer(self.rows)
        elif verb == "poll":
            self.poll(query)
        elif verb == "disable":
            query.disables += 1
        else:
            self.enable(query)

    def line(self, files, line):
        first, second = line.split(" ")[:2]
        if first == "import":
            self.rows[second] = files[second]
            self.commit()
        elif first == "remove":
            self.rows.pop(second, None)
            self.commit()
        else:
            self.ask(int(first[1:]), second)


def main():
    start, count = int(sys.argv[1]), int(sys.argv[2])
    draws = Draws(start)
    files = [file(draws, i) for i in range(count)]
    contents = dict(files)
    server = Server()
    for line in script(draws, files):
        server.line(contents, line)
    print("files", count)
    print("events", server.events)
    print("version", server.version)
    print("rows", len(server.rows))
    print("notices", server.notices)
    print("added", server.added)
    # each file is imported once, so none changes
    print("changed", 0)
    print("removed", server.removed)
    print("held", *[len(server.queries[client].held) for client in range(8)])


if __name__ == "__main__":
    main()
