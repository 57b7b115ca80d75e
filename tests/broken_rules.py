"""Rules that are broken, one in each class, named for what it does then."""
from __future__ import annotations

from dataclasses import replace
from typing import Callable, Optional

from model import FULL, Range, Refusal, SIGN, WORDS, joined, signed, single
from model_verifier import Pointer, State, Verifier

BROKEN: list[type[Verifier]] = []


def broken(name: str, **methods: Callable) -> None:
    """Adds the rules with these methods in the place of their own."""
    BROKEN.append(type(name, (Verifier,), methods))


def other(method: str, change: Callable) -> Callable:
    """The method with its answer changed."""
    return lambda self, *given: change(getattr(Verifier, method)(self, *given))


# ---- what words do

broken("quotient_by_zero_is_the_dividend", div_=lambda self, a, b, width: a // b if b else a)
broken("remainder_by_zero_is_zero", mod_=lambda self, a, b, width: a % b if b else 0)
broken("signed_quotient_rounds_down", sdiv_=lambda self, a, b, width: signed(a, width) // signed(b, width) if b else 0)
broken("signed_quotient_by_zero_is_the_dividend", sdiv_=lambda self, a, b, width: Verifier.sdiv_(self, a, b, width) if b else a)
broken("signed_quotient_reads_without_sign", sdiv_=lambda self, a, b, width: a // b if b else 0)
broken("signed_remainder_has_the_divisors_sign", smod_=lambda self, a, b, width: signed(a, width) % signed(b, width) if b else a)
broken("signed_remainder_by_zero_is_zero", smod_=lambda self, a, b, width: Verifier.smod_(self, a, b, width) if b else 0)
broken("left_shift_by_the_whole_amount", lsh_=lambda self, a, b, width: a << min(b, 64))
broken("left_shift_by_six_bits_at_each_width", lsh_=lambda self, a, b, width: a << b % 64)
broken("right_shift_by_the_whole_amount", rsh_=lambda self, a, b, width: a >> min(b, 64))
broken("right_shift_by_six_bits_at_each_width", rsh_=lambda self, a, b, width: a >> b % 64)
broken("signed_shift_fills_with_zeros", arsh_=lambda self, a, b, width: a >> b % width)
broken("signed_shift_takes_the_sign_of_64_bits", arsh_=lambda self, a, b, width: signed(a) >> b % width)
broken("complement_for_negation", neg=lambda self, a, width: ~a % WORDS[width])
broken("sign_extension_fills_with_zeros", movsx=lambda self, a, bits, width: a % (1 << bits))
broken("sign_extension_of_32_bits_fills_64", movsx=lambda self, a, bits, width: Verifier.movsx(self, a, bits, 64))
broken("little_end_reverses", end=lambda self, order, bits, a: Verifier.end(self, "be", bits, a))
broken("big_end_keeps_the_order", end=lambda self, order, bits, a: Verifier.end(self, "le" if order == "be" else order, bits, a))
broken("swap_keeps_the_order", end=lambda self, order, bits, a: Verifier.end(self, "le" if order == "swap" else order, bits, a))
broken("end_keeps_the_upper_bits", end=lambda self, order, bits, a: a >> bits << bits | Verifier.end(self, order, bits, a))
for old, new in (("gt", "ge"), ("ge", "gt"), ("lt", "le"), ("le", "lt"), ("sgt", "sge"), ("sge", "sgt"), ("slt", "sle"), ("sle", "slt"),
                 ("sgt", "gt"), ("sge", "ge"), ("slt", "lt"), ("sle", "le"), ("set", "eq"), ("eq", "set"), ("ne", "set")):
    broken(f"{old}_compared_as_{new}", holds=lambda self, test, width, a, b, old=old, new=new:
           Verifier.holds(self, new if test == old else test, width, a, b))
broken("signed_tests_read_64_bits", holds=lambda self, test, width, a, b: Verifier.holds(self, test, 64, a, b))

# ---- ranges


def without_step(step: int) -> Callable:
    """A `tighten` that leaves out one of its steps."""
    def tighten(self: Verifier, r: Range) -> Range:
        steps = (
            lambda r: replace(r, umin=max(r.umin, r.smin), umax=min(r.umax, r.smax)) if r.smin >= 0 else r,
            lambda r: replace(r, umin=max(r.umin, r.smin + WORDS[64]), umax=min(r.umax, r.smax + WORDS[64])) if r.smax < 0 else r,
            lambda r: replace(r, smin=max(r.smin, r.umin), smax=min(r.smax, r.umax)) if r.umax < SIGN else r,
            lambda r: replace(r, smin=max(r.smin, r.umin - WORDS[64]), smax=min(r.smax, r.umax - WORDS[64])) if r.umin >= SIGN else r)
        for number, change in enumerate(steps):
            r = r if number == step else change(r)
        return r
    return tighten


for number, name in enumerate(("signed_bounds_of_0_or_more", "signed_bounds_below_0", "unsigned_bounds_below_2_to_the_63",
                               "unsigned_bounds_from_2_to_the_63")):
    broken(f"{name}_are_not_carried_over", tighten=without_step(number))
broken("any_word_of_32_bits_is_any_of_64", any_word=lambda self, width: FULL)
broken("low_part_of_a_single_is_itself", low_part=lambda self, r: r if r.umax < WORDS[32] else self.any_word(32))
broken("low_part_of_a_small_range_is_any", low_part=lambda self, r: single(r.umin % WORDS[32]) if r.is_single() else self.any_word(32))
broken("low_part_is_the_whole", low_part=lambda self, r: r)


def without_singles(self: Verifier, op: str, width: int, a: Range, b: Range) -> Range:
    """An operation on single words by its table."""
    return getattr(self, "range_" + op)(width, self.low(width, a), self.low(width, b))


broken("single_words_are_not_computed", of_two=without_singles)


def wrapping_sum(self: Verifier, width: int, unsigned: Optional[tuple[int, int]], readings: tuple[int, int]) -> Range:
    """A range of sums in which one that wraps around is taken as it wraps."""
    low, high = (bound % WORDS[64] for bound in readings)
    return self.by_unsigned(min(low, high), max(low, high)) if unsigned is None else Verifier.sum_of(self, width, unsigned, readings)


broken("sums_of_bounds_wrap_around", sum_of=wrapping_sum)
broken("sum_has_no_signed_bounds", sum_of=lambda self, width, unsigned, readings: Verifier.sum_of(self, width, unsigned, (-SIGN, SIGN)))
broken("sum_has_no_unsigned_bounds", sum_of=lambda self, width, unsigned, readings: Verifier.sum_of(self, width, None, readings))
broken("sum_of_32_bits_has_signed_bounds", sum_of=lambda self, width, unsigned, readings:
       self.tighten(Range(*(unsigned or (0, WORDS[width] - 1)), *readings)) if width == 32 else Verifier.sum_of(self, width, unsigned, readings))
broken("empty_sum_stays_empty", sum_of=lambda self, width, unsigned, readings: self.tighten(
    Range(*(unsigned or (0, WORDS[width] - 1)), *(readings if width == 64 and -SIGN <= readings[0] and readings[1] < SIGN else (-SIGN, SIGN - 1)))))
broken("product_is_any", range_mul=lambda self, width, a, b: self.any_word(width))
broken("product_starts_at_0", range_mul=lambda self, width, a, b:
       self.by_unsigned(0, a.umax * b.umax) if a.umax * b.umax < WORDS[width] else self.any_word(width))
broken("product_that_wraps_is_cut", range_mul=lambda self, width, a, b:
       self.by_unsigned(a.umin * b.umin % WORDS[width], min(a.umax * b.umax, WORDS[width] - 1)))
broken("quotient_is_at_most_the_dividend", range_div=lambda self, width, a, b: self.by_unsigned(0, a.umax))
broken("quotient_by_the_greatest_divisor_alone", range_div=lambda self, width, a, b:
       self.by_unsigned(a.umin // b.umax, a.umax // b.umax) if b.umin else self.by_unsigned(0, a.umax))
broken("quotient_by_what_may_be_0_as_by_1", range_div=lambda self, width, a, b:
       self.by_unsigned(a.umin // b.umax if b.umax else 0, a.umax // max(b.umin, 1)))
broken("remainder_is_below_what_may_be_0", range_mod=lambda self, width, a, b: self.by_unsigned(0, min(a.umax, max(b.umax - 1, 0))))
broken("remainder_is_at_most_the_dividend", range_mod=lambda self, width, a, b: self.by_unsigned(0, a.umax))
broken("remainder_is_below_the_divisor_alone", range_mod=lambda self, width, a, b: self.by_unsigned(0, b.umax - 1 if b.umin else a.umax))
broken("remainder_may_be_the_divisor", range_mod=lambda self, width, a, b: self.by_unsigned(0, min(a.umax, b.umax) if b.umin else a.umax))
broken("signed_quotient_as_unsigned", range_sdiv=Verifier.range_div)
broken("signed_remainder_as_unsigned", range_smod=Verifier.range_mod)
broken("and_is_at_most_the_mask", range_and=lambda self, width, a, b: self.by_unsigned(0, b.umax))
broken("and_is_at_most_the_first", range_and=lambda self, width, a, b: self.by_unsigned(0, a.umax))
broken("or_is_at_most_the_greater", range_or=lambda self, width, a, b: self.by_unsigned(max(a.umin, b.umin), max(a.umax, b.umax)))
broken("or_starts_at_0", range_or=lambda self, width, a, b: self.by_unsigned(0, self.all_ones(a, b)))
broken("or_and_xor_are_any", all_ones=lambda self, a, b: WORDS[64] - 1)
broken("xor_starts_as_or", range_xor=Verifier.range_or)
broken("left_shift_is_any", range_lsh=lambda self, width, a, b: self.any_word(width))
broken("left_shift_that_wraps_is_cut", range_lsh=lambda self, width, a, b:
       self.by_unsigned(0, (a.umax << b.umin % width) % WORDS[width]) if b.is_single() else self.any_word(width))
broken("left_shift_starts_at_0", range_lsh=lambda self, width, a, b: replace(Verifier.range_lsh(self, width, a, b), umin=0, smin=-SIGN))
broken("left_shift_by_the_least_amount", range_lsh=lambda self, width, a, b: Verifier.range_lsh(self, width, a, single(b.umin)))
broken("right_shift_by_the_least_amount", range_rsh=lambda self, width, a, b: Verifier.range_rsh(self, width, a, single(b.umin)))
broken("right_shift_is_at_most_the_first", range_rsh=lambda self, width, a, b: self.by_unsigned(0, a.umax))
broken("right_shift_by_any_is_any", range_rsh=lambda self, width, a, b:
       Verifier.range_rsh(self, width, a, b) if b.is_single() else self.any_word(width))
broken("signed_shift_of_32_bits_as_unsigned", range_arsh=lambda self, width, a, b:
       self.range_rsh(width, a, b) if width == 32 else Verifier.range_arsh(self, width, a, b))
broken("signed_shift_of_small_words_is_any", range_arsh=lambda self, width, a, b:
       self.any_word(32) if width == 32 else Verifier.range_arsh(self, width, a, b))
broken("signed_shift_by_any_is_any", range_arsh=lambda self, width, a, b:
       FULL if width == 64 and not b.is_single() else Verifier.range_arsh(self, width, a, b))
broken("signed_shift_by_the_least_amount", range_arsh=lambda self, width, a, b: Verifier.range_arsh(self, width, a, single(b.umin)))
broken("signed_shift_as_unsigned", range_arsh=lambda self, width, a, b: Verifier.range_rsh(self, width, a, b))
broken("move_of_32_bits_is_any", range_mov=lambda self, width, a, b: self.any_word(32) if width == 32 else b)
broken("negation_is_any", of_neg=lambda self, width, a:
       single(self.neg(self.low(width, a).umin, width)) if self.low(width, a).is_single() else self.any_word(width))
broken("sign_extension_of_small_words_is_their_width", of_movsx=lambda self, bits, width, b:
       Verifier.of_movsx(self, bits, width, b if self.low(width, b).is_single() else FULL))
broken("sign_extension_may_not_be_negative", of_movsx=lambda self, bits, width, b:
       self.by_unsigned(0, (1 << bits - 1) - 1) if not self.low(width, b).is_single() else Verifier.of_movsx(self, bits, width, b))
broken("sign_extension_at_32_bits_as_at_64", of_movsx=lambda self, bits, width, b: Verifier.of_movsx(self, bits, 64, self.low(width, b)))
broken("sign_extension_is_any", of_movsx=lambda self, bits, width, b:
       Verifier.of_movsx(self, bits, width, b) if self.low(width, b).umax < 1 << bits - 1 or b.is_single() else self.any_word(width))
broken("little_end_of_small_words_is_its_width", of_end=lambda self, order, bits, a:
       Verifier.of_end(self, order, bits, a if a.is_single() else FULL))
broken("big_end_of_small_words_is_the_word", of_end=lambda self, order, bits, a:
       Verifier.of_end(self, "le" if not a.is_single() else order, bits, a))
broken("little_end_of_any_is_any", of_end=lambda self, order, bits, a:
       FULL if not a.is_single() and a.umax >> bits else Verifier.of_end(self, order, bits, a))

# ---- conditions


def unrefined(self: Verifier, a: Range, b: Range) -> tuple[Range, Range]:
    """Two ranges of which a condition tells nothing."""
    return a, b


for test in ("eq", "ne", "gt", "ge", "lt", "le", "sgt", "sge", "slt", "sle"):
    broken(f"{test}_tells_nothing", **{"refine_" + test: unrefined})
    if test != "ne":
        broken(f"{test}_tells_nothing_of_the_second", **{"refine_" + test: lambda self, a, b, test=test: (
            lambda refined: refined and (refined[0], b))(getattr(Verifier, "refine_" + test)(self, a, b))})
for test in ("set", "clear"):
    broken(f"{test}_of_single_words_passes_both_ways", **{"refine_" + test: unrefined})
for old, new in (("gt", "ge"), ("ge", "gt"), ("sgt", "sge"), ("sge", "sgt")):
    broken(f"{old}_refined_as_{new}", **{"refine_" + old: getattr(Verifier, "refine_" + new)})
for old, new in (("sgt", "gt"), ("sge", "ge"), ("slt", "lt"), ("sle", "le")):
    broken(f"{old}_refined_as_{new}", **{"refine_" + old: getattr(Verifier, "refine_" + new)})
broken("equal_single_words_differ", refine_ne=lambda self, a, b: Verifier.refine_ne(self, a, b) or (a, b))
broken("ne_moves_no_signed_bound", refine_ne=lambda self, a, b:
       (lambda refined: refined and (replace(refined[0], smin=a.smin, smax=a.smax), b))(Verifier.refine_ne(self, a, b)))
broken("ne_moves_no_unsigned_bound", refine_ne=lambda self, a, b:
       (lambda refined: refined and (replace(refined[0], umin=a.umin, umax=a.umax), b))(Verifier.refine_ne(self, a, b)))
broken("ne_of_a_single_first_narrows_the_second", refine_ne=lambda self, a, b:
       (lambda refined: refined and (refined[1], refined[0]))(Verifier.refine_ne(self, b, a)) if a.is_single() and not b.is_single() else Verifier.refine_ne(self, a, b))
broken("gt_of_the_greatest_word_may_hold", refine_gt=lambda self, a, b:
       Verifier.refine_gt(self, a, b) if b.umin < WORDS[64] - 1 else (a, b))
broken("gt_of_0_may_hold", refine_gt=lambda self, a, b: Verifier.refine_gt(self, a, b) if a.umax > 0 else (a, b))
broken("sgt_of_the_greatest_number_may_hold", refine_sgt=lambda self, a, b:
       Verifier.refine_sgt(self, a, b) if b.smin < SIGN - 1 else (a, b))
broken("sgt_of_the_least_number_may_hold", refine_sgt=lambda self, a, b: Verifier.refine_sgt(self, a, b) if a.smax > -SIGN else (a, b))
broken("empty_side_is_taken", refine=lambda self, test, width, a, b: Verifier.refine(self, test, width, a, b) or (a, b))
broken("words_of_32_bits_are_compared_whole", refine=lambda self, test, width, a, b: Verifier.refine(self, test, 64, a, b))
broken("conditions_of_32_bits_tell_nothing", refine=lambda self, test, width, a, b:
       self.refine_low(test, a, b) if width == 32 else Verifier.refine(self, test, width, a, b))
broken("words_below_2_to_the_32_are_refined_as_low", refine=lambda self, test, width, a, b:
       Verifier.refine(self, test, 64 if width == 32 and max(a.umax, b.umax) < WORDS[32] else width, a, b))
broken("low_words_pass_both_ways", refine_low=lambda self, test, a, b: (a, b))
broken("refined_ranges_are_not_tightened", refine=lambda self, test, width, a, b:
       (lambda refined: refined if refined is None or width == 32 else getattr(self, "refine_" + test)(a, b))(Verifier.refine(self, test, width, a, b)))

# ---- registers


def entry_with(number: int, value: Callable) -> Callable:
    """An entry at which a register has another value."""
    return lambda self, sizes: Verifier.entry(self, sizes).with_register(number, value(self, sizes))


broken("absent_old_value_has_no_length", entry=entry_with(7, lambda self, sizes: self.by_signed(0, sizes["old"])))
broken("absent_argument_has_no_length", entry=entry_with(8, lambda self, sizes: self.by_signed(0, sizes["arg"])))
broken("key_length_may_be_negative", entry=entry_with(6, lambda self, sizes: self.by_signed(-1, sizes["key"])))
broken("key_length_is_any", entry=entry_with(6, lambda self, sizes: FULL))
broken("old_length_is_any", entry=entry_with(7, lambda self, sizes: FULL))
broken("argument_length_is_any", entry=entry_with(8, lambda self, sizes: FULL))
broken("stack_pointer_is_at_its_start", entry=entry_with(10, lambda self, sizes: Pointer("stack", 0, 0)))
for number in (0, 5, 9):
    broken(f"register_{number}_is_written_at_entry", entry=entry_with(number, lambda self, sizes: single(0)))
broken("pointer_as_number_is_any", as_number=lambda self, value: value if isinstance(value, Range) else FULL)
broken("pointer_as_number_is_its_distance", as_number=lambda self, value:
       value if isinstance(value, Range) else self.by_signed(value.low, value.high))
broken("pointer_reaches_any_distance", moved=lambda self, pointer, least, most:
       Pointer(pointer.window, pointer.low + least, pointer.high + most))
broken("pointer_reaches_less_backward", moved=lambda self, pointer, least, most:
       FULL if pointer.low + least < 0 else Verifier.moved(self, pointer, least, most))
broken("pointer_reaches_one_less", moved=lambda self, pointer, least, most:
       FULL if pointer.high + most == 1 << 20 else Verifier.moved(self, pointer, least, most))
broken("pointer_reaches_one_less_backward", moved=lambda self, pointer, least, most:
       FULL if pointer.low + least == -1 << 20 else Verifier.moved(self, pointer, least, most))
broken("pointer_moves_by_the_least_alone", moved=lambda self, pointer, least, most: Verifier.moved(self, pointer, least, least))
broken("pointer_moves_by_the_greatest_alone", moved=lambda self, pointer, least, most: Verifier.moved(self, pointer, most, most))
broken("pointer_of_one_distance_alone_moves_by_many", moved=lambda self, pointer, least, most:
       FULL if pointer.low < pointer.high and least < most else Verifier.moved(self, pointer, least, most))


def computed_unless(is_case: Callable, result: Callable) -> Callable:
    """`computed` with another result in some cases."""
    return lambda self, op, width, a, b: result(self, op, width, a, b) if is_case(op, width, a, b) else Verifier.computed(self, op, width, a, b)


def is_pointer(value: object) -> bool:
    return isinstance(value, Pointer)


def plain_result(self: Verifier, op: str, width: int, a: object, b: object) -> Range:
    """The operation on numbers."""
    return self.of_two(op, width, FULL if a is None else self.as_number(a), self.as_number(b))


def unsigned_move(self: Verifier, op: str, width: int, a: object, b: object) -> object:
    """A pointer that moves by the unsigned reading."""
    pointer, number = (a, b) if is_pointer(a) else (b, a)
    return self.moved(pointer, number.umin, number.umax)


broken("number_plus_pointer_is_a_number", computed=computed_unless(
    lambda op, width, a, b: op == "add" and width == 64 and not is_pointer(a) and is_pointer(b), plain_result))
broken("pointer_plus_number_is_a_number", computed=computed_unless(
    lambda op, width, a, b: op == "add" and width == 64 and is_pointer(a) and not is_pointer(b), plain_result))
broken("pointer_less_number_is_a_number", computed=computed_unless(
    lambda op, width, a, b: op == "sub" and width == 64 and is_pointer(a), plain_result))
broken("number_less_pointer_is_a_pointer", computed=computed_unless(
    lambda op, width, a, b: op == "sub" and width == 64 and not is_pointer(a) and is_pointer(b), lambda self, op, width, a, b: self.moved(b, a.smin, a.smax)))
broken("pointer_plus_pointer_is_the_first", computed=computed_unless(
    lambda op, width, a, b: op == "add" and width == 64 and is_pointer(a) and is_pointer(b), lambda self, op, width, a, b: a))
broken("pointer_less_pointer_is_the_first", computed=computed_unless(
    lambda op, width, a, b: op == "sub" and width == 64 and is_pointer(a) and is_pointer(b), lambda self, op, width, a, b: a))
broken("pointer_moves_by_the_unsigned_reading", computed=computed_unless(
    lambda op, width, a, b: op == "add" and width == 64 and is_pointer(a) != is_pointer(b), unsigned_move))
broken("sum_of_32_bits_is_a_pointer", computed=computed_unless(
    lambda op, width, a, b: op == "add" and width == 32 and is_pointer(a) != is_pointer(b), lambda self, op, width, a, b: Verifier.computed(self, op, 64, a, b)))
broken("moved_pointer_is_a_number", computed=computed_unless(
    lambda op, width, a, b: op == "mov" and width == 64 and is_pointer(b), plain_result))
broken("move_of_32_bits_is_a_pointer", computed=computed_unless(
    lambda op, width, a, b: op == "mov" and width == 32 and is_pointer(b), lambda self, op, width, a, b: b))
for op in ("or", "and", "xor"):
    broken(f"pointer_{op}_number_is_a_pointer", computed=computed_unless(
        lambda given, width, a, b, op=op: given == op and width == 64 and is_pointer(a) and not is_pointer(b), lambda self, op, width, a, b: a))

# ---- joins


def joined_values(is_case: Callable, result: Callable) -> Callable:
    """`join_values` with another result in some cases."""
    return lambda self, a, b: result(a, b) if is_case(a, b) else Verifier.join_values(self, a, b)


def are_both(kind: type) -> Callable:
    return lambda a, b: isinstance(a, kind) and isinstance(b, kind)


broken("join_with_unwritten_is_the_other", join_values=joined_values(
    lambda a, b: a is None or b is None, lambda a, b: b if a is None else a))
broken("join_of_numbers_is_the_first", join_values=joined_values(are_both(Range), lambda a, b: a))
broken("join_of_numbers_is_the_second", join_values=joined_values(are_both(Range), lambda a, b: b))
broken("join_of_numbers_is_any", join_values=joined_values(are_both(Range), lambda a, b: a if a == b else FULL))
broken("join_keeps_the_first_unsigned_minimum", join_values=joined_values(are_both(Range), lambda a, b: replace(joined(a, b), umin=a.umin)))
broken("join_keeps_the_first_signed_minimum", join_values=joined_values(are_both(Range), lambda a, b: replace(joined(a, b), smin=a.smin)))
broken("join_keeps_the_first_unsigned_maximum", join_values=joined_values(are_both(Range), lambda a, b: replace(joined(a, b), umax=a.umax)))
broken("join_keeps_the_first_signed_maximum", join_values=joined_values(are_both(Range), lambda a, b: replace(joined(a, b), smax=a.smax)))
broken("join_of_pointers_is_the_first", join_values=joined_values(are_both(Pointer), lambda a, b: a))
broken("join_of_pointers_is_a_number", join_values=joined_values(are_both(Pointer), lambda a, b: a if a == b else FULL))
broken("join_of_equal_pointers_is_a_number", join_values=joined_values(are_both(Pointer), lambda a, b: FULL))
broken("join_of_two_windows_is_the_first", join_values=joined_values(
    lambda a, b: is_pointer(a) and is_pointer(b) and a.window != b.window, lambda a, b: a))
broken("join_of_pointer_and_number_is_the_pointer", join_values=joined_values(
    lambda a, b: None not in (a, b) and is_pointer(a) != is_pointer(b), lambda a, b: a if is_pointer(a) else b))
broken("join_of_pointer_and_number_is_unwritten", join_values=joined_values(
    lambda a, b: None not in (a, b) and is_pointer(a) != is_pointer(b), lambda a, b: None))
broken("join_unites_written_bytes", join_written=lambda self, a, b: a | b)
broken("join_forgets_written_bytes", join_written=lambda self, a, b: a if a == b else frozenset())
broken("join_keeps_values_of_one_side", join_spilled=lambda self, a, b: {**a, **b, **Verifier.join_spilled(self, a, b)})
broken("join_forgets_spilled_values", join_spilled=lambda self, a, b: {})
broken("join_keeps_the_first_sides_values", join_spilled=lambda self, a, b: {slot: a[slot] for slot in a.keys() & b.keys()})
broken("last_state_stands_for_all", send=lambda self, states, unit, state: states.update({unit: state}))
broken("first_state_stands_for_all", send=lambda self, states, unit, state: states.setdefault(unit, state))

# ---- frames

broken("value_kept_after_a_partial_store", touched=lambda self, low, high, size:
       range(low // 8, (high + size - 1) // 8 + 1) if size == 8 else range(0))
broken("value_kept_in_the_last_touched_slot", touched=lambda self, low, high, size:
       range(low // 8, max(low // 8 + 1, (high + size - 1) // 8)))
broken("value_kept_in_the_first_touched_slot", touched=lambda self, low, high, size:
       range(min(low // 8 + 1, (high + size - 1) // 8), (high + size - 1) // 8 + 1))
broken("value_kept_under_a_store_to_several_addresses", touched=lambda self, low, high, size:
       Verifier.touched(self, low, high, size) if low == high else range(0))
broken("value_kept_between_least_and_greatest_address", touched=lambda self, low, high, size: Verifier.touched(self, low, low, size))
broken("store_forgets_all_values", touched=lambda self, low, high, size: range(64))
broken("value_spilled_by_an_unaligned_store", keeps_slot=lambda self, low, high, size: low == high and size == 8)
broken("value_spilled_by_a_short_store", keeps_slot=lambda self, low, high, size: low == high and low % 8 == 0)
broken("value_spilled_by_a_store_to_several_addresses", keeps_slot=lambda self, low, high, size: size == 8 and low % 8 == 0)
broken("no_value_is_spilled", keeps_slot=lambda self, low, high, size: False)
broken("store_marks_no_byte", marked=lambda self, written, window, low, size: written)
broken("store_marks_one_byte_less", marked=lambda self, written, window, low, size:
       written | {(window, byte) for byte in range(low, low + size - 1)})
broken("store_marks_one_byte_more", marked=lambda self, written, window, low, size:
       written | {(window, byte) for byte in range(low, low + size + 1)})
broken("store_marks_eight_bytes", marked=lambda self, written, window, low, size:
       written | {(window, byte) for byte in range(low, low + 8)})
broken("store_into_result_marks_nothing", marked=lambda self, written, window, low, size:
       written if window == "result" else Verifier.marked(self, written, window, low, size))
broken("store_to_several_addresses_marks_the_least", store=lambda self, state, window, span, size, value:
       (lambda after: after._replace(written=self.marked(after.written, window, span[0], size)))(Verifier.store(self, state, window, span, size, value)))
broken("load_reads_the_first_byte_alone", are_written=lambda self, state, window, low, end: (window, low) in state.written)
broken("load_reads_the_last_byte_alone", are_written=lambda self, state, window, low, end: (window, end - 1) in state.written)
broken("load_of_result_needs_no_byte", are_written=lambda self, state, window, low, end:
       window == "result" or Verifier.are_written(self, state, window, low, end))
broken("load_of_stack_needs_no_byte", are_written=lambda self, state, window, low, end:
       window == "stack" or Verifier.are_written(self, state, window, low, end))
broken("load_from_several_addresses_needs_the_least", may_load=lambda self, state, window, span, insn:
       Verifier.may_load(self, state, window, (span[0], span[0]), insn))
broken("signed_load_is_unsigned", loaded_range=lambda self, insn: Verifier.loaded_range(self, insn._replace(op="")))
broken("load_is_any_word", loaded_range=lambda self, insn: FULL)
broken("signed_load_is_any_word", loaded_range=lambda self, insn: FULL if insn.op == "signed" else Verifier.loaded_range(self, insn))
broken("unsigned_load_is_signed", loaded_range=lambda self, insn: Verifier.loaded_range(self, insn._replace(op="signed")))
broken("prefix_is_all_that_was_written", written_prefix=lambda self, state, size:
       sum(("result", byte) in state.written for byte in range(size)))
broken("prefix_is_the_whole_window", written_prefix=lambda self, state, size: size)
broken("prefix_is_one_byte_less", written_prefix=lambda self, state, size: max(Verifier.written_prefix(self, state, size) - 1, 0))

# ---- refusals


def without(*ignored: int) -> Callable:
    """An instruction after which these refusals are ignored."""
    def verify(self: Verifier, insns: list, sizes: dict[str, int]) -> None:
        try:
            Verifier.verify(self, insns, sizes)
        except Refusal as refusal:
            if int(str(refusal).split()[1]) not in ignored:
                raise
    return verify


for number in (30, 31, 32, 33, 40, 41, 42, 43, 44, 45, 46, 47):
    broken(f"program_of_{number}_is_accepted", verify=without(number))
broken("access_may_begin_before_the_window", span=lambda self, pointer, insn, sizes: Verifier.span(
    self, Pointer(pointer.window, max(pointer.low, -insn.offset), max(pointer.high, -insn.offset)), insn, sizes))
broken("access_may_end_one_byte_late", span=lambda self, pointer, insn, sizes:
       Verifier.span(self, pointer, insn._replace(width=insn.width - 1), sizes))
broken("access_must_end_one_byte_early", span=lambda self, pointer, insn, sizes:
       Verifier.span(self, pointer, insn._replace(width=insn.width + 1), sizes))
broken("access_looks_at_the_least_address", span=lambda self, pointer, insn, sizes:
       (Verifier.span(self, Pointer(pointer.window, pointer.low, pointer.low), insn, sizes)[0], pointer.high + insn.offset))
broken("access_looks_at_the_greatest_address", span=lambda self, pointer, insn, sizes:
       (pointer.low + insn.offset, Verifier.span(self, Pointer(pointer.window, pointer.high, pointer.high), insn, sizes)[1]))
broken("window_is_the_greatest", span=lambda self, pointer, insn, sizes:
       Verifier.span(self, pointer, insn, {"key": 64, "old": 1024, "arg": 1024, "result": 1024}))
for window in ("key", "old", "arg"):
    broken(f"{window}_may_be_stored_into", may_store=lambda self, given, unit, window=window: None if given == window else Verifier.may_store(self, given, unit))
broken("read_only_comes_before_the_window", span=lambda self, pointer, insn, sizes:
       (self.may_store(pointer.window, insn.unit) if insn.kind == "store" else None, Verifier.span(self, pointer, insn, sizes))[1])
broken("answer_is_looked_at_as_unsigned", may_exit=lambda self, answer, prefix, unit: Verifier.may_exit(
    self, single(0) if answer.umin >= WORDS[64] - 2 or answer.umax <= prefix else FULL, prefix, unit))
broken("answer_may_be_minus_2", may_exit=lambda self, answer, prefix, unit:
       Verifier.may_exit(self, replace(answer, smin=max(answer.smin, -1)), prefix, unit) if answer.smin >= -2 else Verifier.may_exit(self, answer, prefix, unit))
broken("answer_may_not_be_nothing", may_exit=lambda self, answer, prefix, unit:
       Verifier.may_exit(self, FULL if answer.smin < 0 else answer, prefix, unit))
broken("answer_may_not_be_all", may_exit=lambda self, answer, prefix, unit: Verifier.may_exit(self, answer, prefix - 1, unit))
broken("answer_may_be_one_more", may_exit=lambda self, answer, prefix, unit: Verifier.may_exit(self, answer, prefix + 1, unit))
broken("immediate_is_extended_with_zeros", immediate=lambda self, insn: single(insn.imm % WORDS[32]))
broken("pointers_are_narrowed", narrowed=lambda self, state, insn, refined: state.with_register(insn.dst, refined[0]) if insn.src is None
       else state.with_register(insn.dst, refined[0]).with_register(insn.src, refined[1]))
broken("second_register_is_not_narrowed", narrowed=lambda self, state, insn, refined:
       Verifier.narrowed(self, state, insn._replace(src=None), refined))
broken("first_register_is_not_narrowed", narrowed=lambda self, state, insn, refined:
       state if insn.src is None else Verifier.narrowed(self, state, insn._replace(dst=insn.src), (refined[1], refined[1])))
broken("jump_sends_one_side", sides=lambda self, state, insn: Verifier.sides(self, state, insn)[:1])
broken("condition_on_one_register_is_refined", sides=lambda self, state, insn:
       [(unit, state) for unit, test in ((insn.unit + 1 + insn.offset, insn.op), (insn.unit + 1, "ne" if insn.op == "eq" else "eq"))
        if test not in ("ne", "gt", "lt", "sgt", "slt")] if insn.src == insn.dst else Verifier.sides(self, state, insn))


def all_checked(self: Verifier, insns: list, sizes: dict[str, int]) -> None:
    """A walk that looks at units to which no state was sent, with the state of entry."""
    Verifier.verify(self, insns, sizes)
    reached = set()
    states = {0: self.entry(sizes)}
    for insn in insns:
        state = states.pop(insn.unit, None)
        if state is None:
            state = self.entry(sizes)
        reached.add(insn.unit)
        for unit, after in self.sent(state, insn, sizes):
            self.send(states, unit, after)


broken("unreached_units_are_checked", verify=all_checked)
broken("stored_immediate_is_any", after_store=lambda self, state, insn, sizes: Verifier.after_store(
    self, state, insn, sizes) if insn.src is not None else (lambda after: after._replace(spilled={
        slot: FULL if value is not state.spilled.get(slot) else value for slot, value in after.spilled.items()}))(Verifier.after_store(self, state, insn, sizes)))
