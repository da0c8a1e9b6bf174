"""The trial of a crate's must-fail edits: which go into one check together, and what its checks say of each."""
import edit_checks
import edit_texts
from edit_checks import PROVED, REFUSED, UNSURE

# How often an edit goes into a check with others before it is tried alone.
MOST = 3


class Trial:
    """The edits of one crate, as they are tried."""

    def __init__(self, room, edits):
        self.room, self.sources, self.left = room, room.sources, list(edits)
        self.found, self.blocked, self.tries = {}, {}, dict.fromkeys((it.name for it in edits), 0)
        self.batches = []

    def settle(self, edit, kind, text):
        self.found[edit.name] = (kind, text)
        self.left.remove(edit)

    def leave_out_what_does_not_compile(self, batch, said):
        """Settles those of a batch, of which the front end refused some, that it refuses alone too; whether there are any."""
        left = len(self.left)
        while batch and said.status != 0:
            suspects = self.suspects(batch, said) or batch
            for edit in suspects:
                alone = self.room.check([edit], [""])
                if alone.status != 0:
                    self.settle_as_no_code(edit, alone)
            batch = [it for it in batch if it not in suspects]
            said = self.room.check(batch, [""])
        return len(self.left) < left

    def settle_as_no_code(self, edit, said):
        told = [it[2] for it in said.compile_errors()] or said.lines[-1:]
        self.settle(edit, UNSURE, f"it does not compile: {told[0][:200]}")

    def suspects(self, batch, said):
        """The edits in whose lines, or else in whose functions, the front end found fault."""
        errors = [(path, line) for path, line, _ in said.compile_errors()]
        found = [it for it in batch if any(place in it.lines for place in errors)]
        at = {self.sources.function_at(*place) for place in errors}
        return found or [it for it in batch if self.sources.touched(it) & at]

    def next_batch(self, among=None):
        """Edits of different functions, none of which is known to call another's; first those that were tried most, and last
        further ones."""
        batch, taken = [], set()
        for edit in sorted(self.left if among is None else among, key=lambda it: (-self.tries[it.name], it.is_further)):
            own = self.sources.touched(edit)
            bars = self.blocked.get(edit.name, set())
            if not own or self.tries[edit.name] >= MOST or own & taken or bars & taken:
                continue
            if any(self.blocked.get(it.name, set()) & own for it in batch):
                continue
            batch.append(edit)
            taken |= own
        return batch

    def try_together(self, batch):
        said = self.check(batch)
        self.batches.append(len(batch))
        if not said.ended:
            if said.compile_errors() and self.leave_out_what_does_not_compile(batch, said):
                return
            # it says nothing sure: smaller ones
            for edit in batch:
                self.tries[edit.name] = MOST if len(batch) < 3 else self.tries[edit.name] + 1
            return
        others = {name: it for it in batch for f in self.sources.touched(it)
                  for name in edit_texts.names_of(self.room.crate, f, said.states)}
        for edit in batch:
            kind, text = said.of_edit(self.sources, edit)
            if kind == REFUSED:
                self.settle(edit, REFUSED, text)
                continue
            self.tries[edit.name] = MOST if kind == PROVED else self.tries[edit.name] + 1
            names = [name for name, it in others.items() if it is edit]
            bars = {others[it] for name in names for it in said.callees(name) if it in others} - {edit}
            self.blocked.setdefault(edit.name, set()).update(*(self.sources.touched(it) for it in bars))
            if not bars:
                self.tries[edit.name] = MOST

    def check(self, batch):
        """What a check says of the functions that the batch reaches; where it finds one by no name of its own, of their modules."""
        functions = {function for it in batch for function in self.sources.reached(it)}
        said = self.room.check(batch, sorted(map(edit_texts.path_of, functions)))
        if said.finds_no_function():
            modules = sorted({it.module for it in functions})
            said = self.room.check(batch, None if "" in modules else modules)
        return said

    def try_alone(self, edit):
        """Judges an edit by what the check of the crate with it alone says, by its own functions and then by all."""
        self.batches.append(1)
        if self.sources.reached(edit):
            said = self.check([edit])
            kind, text = said.of_edit(self.sources, edit)
            if kind == REFUSED:
                self.settle(edit, REFUSED, text)
                return
        said = self.room.check([edit])
        kind, text = said.of_edit(self.sources, edit)
        if not said.ended and said.compile_errors():
            self.settle_as_no_code(edit, said)
        elif said.status == 0 and said.ended:
            self.settle(edit, PROVED, "STILL PROVED: the contract is too weak, or it means the same")
        elif said.status == 3 and any(map(edit_checks.LIMIT.search, said.lines)):
            self.settle(edit, UNSURE, "a limit of the prover, which gave no verdict, shows nothing of the contract")
        elif not said.ended or said.status != 1:
            self.settle(edit, UNSURE, f"NOT TRIED: its check ended with status {said.status}: {said.lines[-2:]}"[:300])
        elif kind == REFUSED:
            self.settle(edit, REFUSED, text)
        else:
            self.settle(edit, *self.by_any(said))

    def by_any(self, said):
        """What the check of one edit alone says by any function's goals, where the definitions are read."""
        unread = [line for path, _, line in said.places if path.startswith("specs/") and ": error" in line]
        if unread:
            return UNSURE, f"the definitions are not read, so no contract was tried: {unread[0][:200]}"
        for name in said.states:
            kind, text = said.of_function(name)
            if kind == REFUSED:
                return REFUSED, text
        told = [line for _, _, line in said.places if ": error" in line or edit_checks.IS_FALSE.match(line)]
        real = [it for it in told if not edit_checks.A_NAME.search(it)]
        if real:
            return REFUSED, real[0][:200]
        return UNSURE, f"it fell only by a name that went, which shows nothing of the contract: {(told or said.lines[-1:])[0][:200]}"

    def first(self, with_further):
        """Tries as many edits at once as change different functions, with further ones or without, and then what is left of
        those that are no further ones."""
        self.try_next(self.next_batch(self.left if with_further else self.no_further()))
        while left := self.no_further():
            self.try_next(self.next_batch(left) or left[:1])

    def no_further(self):
        return [it for it in self.left if not it.is_further]

    def try_next(self, batch):
        if len(batch) == 1:
            self.try_alone(batch[0])
        elif batch:
            self.try_together(batch)

    def rest(self, may_go_on):
        """Tries those that are left, together and then alone, for as long as it may go on; whether none is left."""
        while (batch := self.next_batch()) and may_go_on():
            self.try_next(batch)
        for edit in list(self.left):
            if may_go_on():
                self.try_alone(edit)
        return not self.left
