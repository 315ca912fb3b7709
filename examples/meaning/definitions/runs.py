"""Runs the definitions of the meaning on a program: guarded, plain, and level by level."""
from collections import namedtuple

from antt import Definitions
from c_source import text_of_word
from values import Con, NONE, Rec, apply, elements, listed, option, sequence, some, whnf

# a crossing: the row, whether it is the reply, what it holds (`content_of` reads it)
Frame = namedtuple('Frame', 'row reply content')
Run = namedtuple('Run', 'outputs frames end')

SPECS = 'Rattle.cl_mean.specs.'
PASSED_ON_AT_MOST = 1000    # frames of a joined run


def content_of(frame):
    """What a frame holds: the list of its numbers, or a word."""
    content = whnf(frame.content)
    if content.name != 'holds':
        return content.name
    return [whnf(x.fields['number']) for x in listed(content.args[0])]


def end_of(end, levels):
    """An end, or None where a run has none, which no accepted source's is."""
    end = whnf(end)
    if end.name == 'None':
        return None
    if end.name == 'Some':
        end = whnf(end.args[0])
    if end.name == 'End.Exit':
        return f'exit {whnf(end.args[0])}'
    trap = whnf(end.args[1])
    cause = whnf(trap.fields['cause']).name.split('.')[1].lower()
    return f'trap {levels[whnf(end.args[0])]} {cause} line {whnf(trap.fields["line"])}'


class Meaning:
    """The definitions, ready to be run."""

    def __init__(self, crates):
        self.definitions = Definitions(crates)

    def call(self, file, name, *args):
        return whnf(apply(self.definitions.value(SPECS + file, name), *args))

    def guarded(self, program, law, houses, inputs, steps):
        """The guarded meaning."""
        checked = program.checked()
        run = self.call('Meaning', 'mean', checked, law, sequence(houses), self.inputs(inputs), steps)
        crossings = [Frame(whnf(c.fields['row']), whnf(c.fields['reply']), c.fields['content']) for c in listed(run.fields['crossings'])]
        return Run(self.outputs(run), crossings, end_of(run.fields['end'], program.levels))

    def plain(self, program, inputs, steps):
        run = self.call('Meaning', 'plain', program.checked(), self.inputs(inputs), steps)
        return Run(self.outputs(run), None, end_of(run.fields['end'], program.levels))

    def journal(self, program, frames):
        crossings = [Rec({'row': f.row, 'reply': f.reply, 'content': f.content}) for f in frames]
        return bytes(listed(self.call('Journal', 'journal', self.source(program), sequence(crossings))))

    def source(self, program):
        return self.call('Source', 'source_of', program.checked())

    def inputs(self, inputs):
        return sequence(sequence(given) for given in inputs)

    def outputs(self, run):
        return [bytes(listed(output)) for output in elements(run.fields['outputs'])]

    def patches(self, program, function, reply, path, number):
        """A patch for each integer under a path of a payload."""
        definition = elements(whnf(self.source(program)).fields['functions'])[function]
        payload = self.call('Source', 'payload_of', definition, reply)
        places = listed(self.call('Shape', 'under', payload, sequence(sequence(part.encode()) for part in path), 0))
        return [Rec({'at': at, 'with': number}) for at in places]

    # ---- each level by itself

    def joined(self, program, inputs, steps):
        """The own runs of all levels, where the bytes of each frame that one sends go on to the level that it is for.

        What came of it: each level's output, the number of frames without the stop frame, the end.
        """
        checked = program.checked()
        levels = range(len(program.levels))
        received, sent_on, count = [[] for _ in levels], [0 for _ in levels], 0
        runs = [None for _ in levels]
        moved = True
        while moved and count < PASSED_ON_AT_MOST:
            moved = False
            for level in levels:
                given, frames = sequence(inputs[level]), sequence(received[level])
                runs[level] = self.call('LocalRun', 'level_run_by_bytes', checked, level, given, steps, frames)
                sent = listed(runs[level].fields['sent'])
                for frame in sent[sent_on[level]:]:
                    moved = True
                    count += self.pass_on(program, level, frame, received)
                sent_on[level] = len(sent)
        outputs = [bytes(listed(self.call('LocalRun', 'output_at', level, runs[level]))) for level in levels]
        ends = [end_of(end, program.levels) for run in runs for end in listed(run.fields['ends'])]
        traps = [end for end in ends if end.startswith('trap')]
        return outputs, count, (traps or ends)[0]

    def pass_on(self, program, level, frame, received):
        """Hands a frame's bytes to the level that it is for, a stop frame's to all others. How many crossings it is."""
        said = whnf(frame.fields['said'])
        sent = sequence(listed(self.call('Journal', 'bytes_of', self.source(program), frame)))
        if said.name == 'says_stop':
            for other, frames in enumerate(received):
                if other != level:
                    frames.append(sent)
            return 0
        caller, callee, _ = program.rows[whnf(said.args[0])]
        received[caller if whnf(said.args[1]) else callee].append(sent)
        return 1


# ---- laws

def law_of(meaning, program, described):
    """A law from the text of a policy; `veil` is read too, for house guards."""
    return Rec({'rules': sequence(rule_of(meaning, program, rule) for rule in described['rules'])})


def rule_of(meaning, program, rule):
    reply = rule['on'] == 'reply'
    numbered = None if rule['function'] == '*' else program.numbers[rule['function']]
    fields = [patch for f in rule.get('fields', [])
              for patch in meaning.patches(program, numbered, reply, f['field'].split('.'), f['with'])]
    acts = {'allow': (), 'block': (), 'quota': (rule.get('left'),), 'redact': (sequence(fields),),
            'veil': (rule.get('left'), sequence(fields))}
    return Rec({'from': some(program.levels.index(rule['from'])), 'to': some(program.levels.index(rule['to'])),
                'function': option(numbered), 'reply': reply,
                'act': Con('GuardAct.' + rule['do'].capitalize(), acts[rule['do']])})


def ceiling(left):
    """The house law of so many requests in all."""
    rule = Rec({'from': NONE, 'to': NONE, 'function': NONE, 'reply': False, 'act': Con('GuardAct.Quota', (left,))})
    return Rec({'rules': sequence([rule])})
