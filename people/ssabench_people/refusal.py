"""What ends a word: a sentence for people, and the status."""


class Refusal(Exception):
    """A refusal by name. Status 1: what was given is refused; 2: the words; 3: a file, or the proved program."""

    def __init__(self, sentence, status=1):
        super().__init__(sentence)
        self.sentence = sentence
        self.status = status
