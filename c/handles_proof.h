/* What tools/handles-proof says of the calls that c/handles.c stands in front of, in ACSL: the verifier alone reads it.
 * The contract of each call is made of its line in the header; these are its words. */
#include "zomtsje.h"

/* The blocks that handles own, each with its content: a text, the parts of a lazy cord, an index. No block is null, and
 * a null handle holds no bytes. The axioms are those of a finite map. */
//@ ghost int heap;
/*@ axiomatic Blocks {
      type content;
      type blocks;
      logic blocks now{L} reads heap;
      logic content no_bytes;
      predicate live(blocks all, void *block);
      logic content held(blocks all, void *block);
      logic blocks put(blocks all, void *block, content what);
      logic blocks drop(blocks all, void *block);

      axiom null_is_none: \forall blocks all; !live(all, \null);
      axiom null_is_empty: \forall blocks all; held(all, \null) == no_bytes;
      axiom null_is_not_put: \forall blocks all, content what; put(all, \null, what) == all;
      axiom live_put: \forall blocks all, void *b, void *c, content what;
          b != \null ==> (live(put(all, b, what), c) <==> c == b || live(all, c));
      axiom held_put: \forall blocks all, void *b, void *c, content what;
          b != \null ==> held(put(all, b, what), c) == (c == b ? what : held(all, c));
      axiom live_drop: \forall blocks all, void *b, void *c; live(drop(all, b), c) <==> live(all, c) && c != b;
      axiom held_drop: \forall blocks all, void *b, void *c; c != b ==> held(drop(all, b), c) == held(all, c);
      axiom drop_none: \forall blocks all, void *b; !live(all, b) ==> drop(all, b) == all;
      axiom drop_put: \forall blocks all, void *b, void *c, content what;
          drop(put(all, b, what), c) == (c == b ? drop(all, c) : put(drop(all, c), b, what));
    }

    predicate begun{L}(void **place) = *place == \null || live(now, *place);
    predicate owns_apart{L}(void **p, void **q) = *p == \null || *p != *q;
    predicate is_own{L1, L2}(void **place) = \at(*place, L2) == \null || \at(*place, L2) == \at(*place, L1)
        || !live(now{L1}, \at(*place, L2));
    logic content content_of{L}(void **place) = held(now, *place);
 */

/* Handles that have more than a block, and what is given as bytes or as a list. That of a list is a matter of what its
 * handles lead to. */
/*@ axiomatic Contents {
      logic content content_of_ext{L}(zc_ext *x) reads *x, heap;
      logic content content_of_pos{L}(zc_pos *x) reads *x, heap;
      logic content content_of_chunks{L}(zc_chunks *x) reads *x, heap;
      logic content bytes_at{L}(char *bytes, integer count) reads bytes[0 .. count - 1];
      logic content parts_at{L}(zc_cord *parts, integer count) reads parts[0 .. count - 1], heap;
      logic content args_at{L}(zc_arg *args, integer count) reads args[0 .. count - 1], heap;
      axiom same_parts{L1, L2}: \forall zc_cord *parts, integer count;
          now{L1} == now{L2}
          && (\forall integer i; 0 <= i < count ==> \at(parts[i].tree, L1) == \at(parts[i].tree, L2))
          ==> parts_at{L1}(parts, count) == parts_at{L2}(parts, count);
      axiom same_args{L1, L2}: \forall zc_arg *args, integer count;
          now{L1} == now{L2}
          && (\forall integer i; 0 <= i < count ==> \at(args[i].text.tree, L1) == \at(args[i].text.tree, L2)
              && \at(args[i].number, L1) == \at(args[i].number, L2)
              && \at(args[i].is_text, L1) == \at(args[i].is_text, L2))
          ==> args_at{L1}(args, count) == args_at{L2}(args, count);
    }
 */

/* What a call means over contents: its code where memory isn't refused, what it makes, and the number that it writes.
 * Each call has a function of its own to that, NAME_of, of which nothing is known but the laws in Laws. */
/*@ axiomatic Meanings {
      type meaning;
      logic integer code(meaning it);
      logic content made(meaning it);
      logic integer answer(meaning it);
    }
 */

/* A share has the same content. Where a text stands in another one, and how they compare: what is said of equal texts
 * follows. The order of a text and itself is Equal, as is proved of slice_cmp. */
/*@ axiomatic Laws {
      logic integer length(content text);
      logic integer byte_of(content text, integer place);
      axiom lengths: \forall content text; 0 <= length(text) <= ZC_MAX_LEN;
      predicate stands(content x, integer end, content y, integer place) =
          0 <= place && place + length(y) <= length(x) && place + length(y) <= end
          && \forall integer i; 0 <= i < length(y) ==> byte_of(x, place + i) == byte_of(y, i);

      logic meaning zc_share_of(content x);
      axiom share: \forall content x; code(zc_share_of(x)) == ZC_OK && made(zc_share_of(x)) == x;
      logic meaning zc_lazy_share_of(content x);
      axiom lazy_share: \forall content x; code(zc_lazy_share_of(x)) == ZC_OK && made(zc_lazy_share_of(x)) == x;

      predicate is_first(content x, integer start, integer end, content y, integer place) =
          place == ZC_NOT_FOUND
              ? \forall integer p; start <= p ==> !stands(x, end, y, p)
              : start <= place && stands(x, end, y, place)
                && \forall integer p; start <= p < place ==> !stands(x, end, y, p);
      predicate is_last(content x, integer end, content y, integer place) =
          place == ZC_NOT_FOUND
              ? \forall integer p; !stands(x, end, y, p)
              : stands(x, end, y, place) && \forall integer p; place < p ==> !stands(x, end, y, p);
      lemma begins: \forall content x, integer end; length(x) <= end ==> stands(x, end, x, 0);
      lemma stands_there: \forall content x, integer end, integer place; stands(x, end, x, place)
          ==> place == 0 && length(x) <= end;
      lemma first_itself: \forall content x, integer start, integer end, integer place;
          0 <= start && is_first(x, start, end, x, place)
          ==> place == (start == 0 && length(x) <= end ? 0 : ZC_NOT_FOUND);
      lemma last_itself: \forall content x, integer end, integer place;
          is_last(x, end, x, place) ==> place == (length(x) <= end ? 0 : ZC_NOT_FOUND);
      logic meaning zc_str_of(content x, integer start, content y);
      axiom str: \forall content x, integer start, content y;
          code(zc_str_of(x, start, y)) == ZC_OK
          && is_first(x, start, length(x), y, answer(zc_str_of(x, start, y)));
      logic meaning zc_str_in_of(content x, integer start, integer end, content y);
      axiom str_in: \forall content x, integer start, integer end, content y;
          code(zc_str_in_of(x, start, end, y)) == ZC_OK
          && is_first(x, start, end, y, answer(zc_str_in_of(x, start, end, y)));
      logic meaning zc_rstr_of(content x, integer end, content y);
      axiom rstr: \forall content x, integer end, content y;
          code(zc_rstr_of(x, end, y)) == ZC_OK && is_last(x, end, y, answer(zc_rstr_of(x, end, y)));

      logic meaning zc_cmp_of(content x, content y);
      axiom cmp: \forall content x, content y;
          code(zc_cmp_of(x, y)) == ZC_OK && (x == y ==> answer(zc_cmp_of(x, y)) == 0);
      logic meaning zc_equal_of(content x, content y);
      axiom equal: \forall content x, content y;
          code(zc_equal_of(x, y)) == ZC_OK && (answer(zc_equal_of(x, y)) == (x == y ? 1 : 0));
    }
 */

/*@ requires x != \null ==> \valid_read(x);
    terminates \true;
    assigns \nothing;
    exits \false;
    ensures \result == (x == \null ? 0 : length(content_of(&x->tree)));
 */
uint64_t zc_len(const zc_cord *x);
