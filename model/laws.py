"""What laws say of a game before and after a line (docs/PROVED.md, Laws of the game), checked as a
game is played: a module. What it finds is that a law doesn't hold of rules; it shows of no law that
it does.
"""

from lines import is_blank, seed_of

MOST = {"clock1": 30, "clock2": 50, "lamp": 100_000}
MOST_UNSEEN, MOST_LOST = 30, 60_000

def facts(game):
    """What laws ask of a state: a copy of it, with its text without the stream."""
    kept = game.copy()
    kept.text = [it for it in game.state_lines() if not it.startswith("stream ")]
    return kept

def of_states(game):
    """For each law about reachable states, whether it holds of this one."""
    cave, dwarves = game.cave, sum(it > 0 for it in game.dwarf_at[:5])
    yield "few_deaths", game.deaths < 3 or game.deaths == 3 and game.ended is not None
    if cave.place("start") and cave.place("building"):
        yield "player_is_somewhere", (game.here != 0 or game.ended is not None
                                      or game.question == "revive")
    yield "closed_is_closing", not (game.closed or game.clock1 < 0) or game.closing
    yield "asked_in_time", not (game.closing and game.question == "revive")
    yield "no_score_is_greater", game.score() <= cave.greatest_score()
    yield "few_in_hands", len(game.in_hands()) <= 8
    if game.here:
        yield "few_dwarves", dwarves + game.kills <= 5 and not (game.closing and dwarves)
    yield "bounds_are_kept", (game.unseen <= MOST_UNSEEN and game.lost <= MOST_LOST and all(
        -1 <= getattr(game, name) <= most for name, most in MOST.items()))
    yield "asks_or_ends", game.question is None or game.ended is None
    yield "hints_are_known", game.question not in ("hint", "take hint") or (
        game.hint in cave.hints)

def of_lines(line, before, after, said):
    """For each law about a line, whether it holds of the states before and after this one."""
    seed = None if is_blank(line) else seed_of(line)
    quiet, same_stream = before.text == after.text and not said, before.stream == after.stream
    if before.ended:
        yield "end_is_quiet", quiet and (seed is not None or same_stream)
    if seed is not None:
        yield "seeds_alone", quiet and after.stream == seed % 1_048_576
    if is_blank(line):
        yield "comments_change_nothing", quiet and same_stream
    if not (is_blank(line) or seed is not None or before.ended or before.question is not None):
        yield "commands_tick", after.turns == before.turns + 1
    yield "nothing_goes_back", (
        before.closing <= after.closing and before.closed <= after.closed
        and (before.anger >= 2) <= (after.anger >= 2) and before.taken <= after.taken)
    yield "hints_never_fall", len(before.taken) <= len(after.taken)
    yield "treasures_go_one_way", after.unseen <= before.unseen and before.lost <= after.lost
    if before.question != "revive":
        yield "deaths_come_one_by_one", before.deaths <= after.deaths <= before.deaths + 1
    if before.here and after.here:
        yield "gone_for_good", not any(
            now and not was for was, now in zip(before.dwarf_at[:5], after.dwarf_at[:5]))

def broken(game, line, before, after):
    """The laws that don't hold of a line, or of the state after it."""
    laws = [*of_lines(line, before, after, game.out), *of_states(game)]
    return [law for law, holds in laws if not holds]
