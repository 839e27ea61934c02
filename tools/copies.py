"""Wrong functions beside the right ones: what tools/check-emptied proves and tools/check-answers runs."""

import re

import sources

class Copy:
    """The function of a wrong program, beside the right ones."""

    def __init__(self, edit, name, emptied):
        self.edit, self.name, self.emptied = edit, name, emptied
        self.function = sources.named_for(edit)

    def text(self):
        """The function with its new name; where it calls itself, it calls the new one."""
        wrong = next(f for f in sources.edited(self.edit) if f.home == self.function.home)
        begin, end = wrong.place
        text = sources.without_comments(sources.edited_sources(self.edit)[wrong.file])[begin:end]
        if self.emptied:
            for word, first, last in reversed(list(sources.parts(text, sources.FN.match(text).end()))):
                if word == "ensures":
                    text = text[: text.rindex(word, 0, first)].rstrip() + text[last:]
        text = text.replace('extern "C" ', "", 1)
        return re.sub(rf"(?<![:.\w]){self.function.home[-1]}(?=[(<])", self.name, text)

    def home(self):
        return self.function.home[:-1] + (self.name,)


def beside(crate, copies):
    """The crate's sources, without comments, each copy behind the function that it is of."""
    right = {function.home: function for function in sources.functions(crate)}
    files = {name: sources.without_comments(text) for name, text in sources.sources(crate).items()}
    places = [(right[copy.function.home].file, right[copy.function.home].place[1], copy.text()) for copy in copies]
    for file, at, text in sorted(places, reverse=True):
        files[file] = f"{files[file][:at]}\n\n{text}\n{files[file][at:]}"
    return files
