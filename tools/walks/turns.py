"""What the two forms of loop have in common: the text around a turn, and how a turn is walked."""

LOOP = '''
  module _ (𝓣 : Tables 𝓤 H) {callees} where
    abbrev C : Calls 𝓤 H
    C = 𝓣 .C

    abbrev Λ : Loops 𝓤 H
    Λ = 𝓣 .Λ

    fm : FmC 𝓤 H (W .laws) C
    fm = fmOf 𝓤 H (W .laws) 𝓣

    module _ {given} ({places} : ℕ) where
      abbrev En : Env 𝓤 H
      En = envOf mir′.locals ({listed} ∷ [])

      -- {what}
      abbrev At : {index} → List (Item 𝓤)
      At i = {cells} ∷ []

      abbrev Turned : {index} → Out → SProp 𝓤
      Turned i = afterTurn 𝓤 H (Below 𝓤 H A Nearer At i)
          (afterBlock 𝓤 H (afterSeq 𝓤 H (Wp 𝓤 H C Λ En mir′.t-{number} (atReturn 𝓤 H En Post)) (atReturn 𝓤 H En Post)))

      turns : (i : {index}) → Sq W (At i) (runs C Λ En mir′.turn-1 (anyQ (Turned i)))
      unfolding afterTurn
      turns i =
        {tests} $
        first ! $ branches ! {test}
        (λ less.
        {goes})
        (λ over.
        {over}){closes}
'''


class Turns:
    """what both forms of loop have in common; `text` is what stands before the walk"""

    def __init__(self, function):
        self.function, self.text = function, ''

    def halves(self, walk, turn, number):
        """from where a turn begins: the steps to its test, the test, the walk that goes on and the one that is over"""
        at = next(j for j, s in enumerate(turn) if isinstance(s, list) and s[0] == 'if')
        walk.run(turn[:at])
        self.tests, self.test, self.closes = walk.steps_so_far(), walk.operand(turn[at][1])[0], ')' * walk.open
        goes, over = walk.fork(), walk.fork()
        goes.step('skips ! $ exec ! C Λ En (after %d mir′.turn-1) (anyQ (Turned i))' % (at + 1))
        goes.run(turn[at + 1:-1])
        goes.assign(turn[-1], last=True)
        over.calls = goes.calls
        over.step('jumps ! $ exec ! C Λ En mir′.t-%d (atRet En Post)' % number)
        return goes, over

    def settle(self, walk, full):
        """the walk at a turn's end has what it had at the turn's beginning, in the same order"""
        for local in sorted(walk.full - full):
            walk.step('forget ! %d refl' % walk.position(local))
        walk.context.bring(*walk.order())

    def laid(self, walk, goes, over, **parts):
        """the text of the loop"""
        places = ['l-%d' % k for k in range(walk.code.count)]
        parts.update(places=' '.join(places), listed=' ∷ '.join(places), tests=self.tests, test=self.test,
                     closes=self.closes, goes=goes.text(), over=over.text())
        text = LOOP
        for name, value in parts.items():
            text = text.replace('{%s}' % name, value)
        return text
