//! What `compare` holds the library to, as its help tells it.

use crate::cli::Part;

/// The text of the help.
pub const ABOUT: &[Part] = &[
    Part::Text(
        "Makes N pairs of random and damaged books from seed S and holds the proved \
             library to the second calculation: all fifteen calls, every entry of every \
             result and every byte of every output. Each pair has one table: document 01's, \
             another that is accepted, or one that is refused. Demand 3 is sampled too: a \
             reordered, mirrored, or reordered and mirrored book has the same report; a joined \
             book takes as many rows as its two parts and, with at most two zones used in each \
             currency, costs at most these, in each charge and the total. So are the charges \
             of each currency: each list adds up to the charge that it splits, and a currency \
             that itself uses at most two zones in a joined book costs at most what it cost in \
             the two, whatever the other currencies use. And every ladder that is accepted \
             adds up, in the lines that `ladder` shows, which hold the library's figures to \
             the rows. The parts of an accepted book follow the contents and are the rest of \
             the file; of a refused one, and of a number that is no class, there are none. \
             Books of foreign exchange and commodities alone cost the same reordered and \
             mirrored, and joined at most what they cost apart, in each figure of the \
             small bank and whatever they hold. A netted book is accepted, stays as it is when \
             it is netted again, and costs at most what the book costs; and with at most two \
             zones used in each currency before netting, a netted join costs at most its two \
             netted books together. Netting takes at most n(n - 1)/2 comparisons of n rows. A \
             book that was offset is accepted, has all rows that are no swap legs in their \
             order, no two rows that fit, and stays as it is when it is offset again. Netting \
             and offsetting in one call leave what the two calls leave one after the other, \
             and given that book once more the call changes nothing. The shortest file that \
             shows a refusal is refused with the same number in its first row, under document \
             01's table and under that of the pair; it is no longer than the book, files that \
             are shorter are refused with other numbers, and it is its own shortest file. The \
             dearest book of a number of rows and a largest amount, which each pair asks for, \
             is accepted, has so many rows of at most so much, and costs the total that is \
             told of it; no accepted book of as many rows of at most as much costs more, \
             neither the first of the pair nor one that is made to be dear. Each pair has two \
             option tables too, the first often damaged. A table is refused just when its \
             length, its count or a field says so; the book of one that is accepted is \
             accepted and costs what is told of it, its rows are those of the options in their \
             order, and each amount is the exact one or less than a unit more. Gamma and vega \
             of a class are those of its groups together; they stay when call and put are \
             exchanged in some options, and vega and the charges when bought and sold are in \
             all. Two such books joined cost at most the two, and so do gamma and vega of two \
             tables put together. The least trade, which each pair asks for in its first book, \
             brings the charge within its limit as a row of that band and side, and that \
             charge wants the same trade; the charge that there is needs none, and a lower \
             limit never a smaller one. The second calculation tries every amount of it; where \
             the answer is far this is done in every 200th pair, and in the others the charge \
             is tried at the answer, one below it, where it turns and at random. In every \
             fourth pair rows share issue numbers, every eighth is of swap legs, every \
             sixteenth of legs that share issue numbers, and every sixteenth of files that are \
             refused.",
    ),
    Part::Text(
        "On a difference it prints the smallest books and option tables that it can find, \
             in hex and row by row, with the table next to document 01's, and stops with exit \
             status 1. It also fails when the pairs have shown too little: every refusal, \
             accepted books with rows, books refused after their first row, interest ladders \
             with all three zones used, commodity ladders with amounts carried, joins made, \
             joins under the zone premise, currencies of both books under their own premise, \
             these beside a currency with three zones, currencies that cost more joined, \
             floating-rate notes, accepted, joined, and refused in each way and place, tables, \
             document 01's, others with interest rows, of a wrong length, with each condition \
             broken alone, and refused before bad books and after groups, and small banks, \
             charged, charged otherwise than by the ladder, joined, joined for less, and \
             refused with each number, with 20 in each way, before bad rows and after 2 and 3, \
             and netted books, of each sort of issue, into outputs that are just long enough, \
             longer and one byte short, refused with each number, with 13 for each field, with \
             13 and 14 in each order, cheaper netted, joined and netted under the premise and \
             without it, with as many comparisons as there can be, with none, with others in \
             another order of the rows, and books that were offset, with legs that fit at each \
             limit, with rows that miss by one thing alone, in chains, for less and for more, \
             into outputs of each length and refused with each number, and books netted and \
             offset, with more pairs and with fewer than before they were netted, for less and \
             for more than in the other order, into outputs of each length, some too short for \
             the netted book, refused with each number, and with 13 and 14 that the other \
             order hides, and refusals that are shown, each number of a row in each class, at \
             each place and before other bad rows, contents of each sort, and accepted books, \
             into outputs of each length, and dearest books, of rows and amounts at their \
             limits and past them, refused for each, into outputs of each length, and books \
             held to the most that they can cost, some as dear, and option tables, of each \
             size up to 1,000, refused with 16 for each reason, with 17 one past each end of \
             each field and at each place, and with 12, into outputs of each length, with \
             options of each class and right, with a delta of 0 and whole, with amounts \
             rounded and not, with gammas charged and not charged, of both sides and with a \
             half, with vegas on each side and on both, in groups and classes on two sides, \
             joined, and put together, and least trades, of nothing, little, much and \
             1,000,000, and none, on each side and in each zone, of weight 0, with three zones \
             used, at the limit, and refused for each reason and before the others, must come \
             up in proportion to N.",
    ),
];
