//! What is typed, and what is told of it: $ and a name stand for longer text, ~ for a blank in a word, ''
//! for an empty one, and {net 0} for how the command net is called in the first of its forms.

/// Files that are missing or too many.
pub const FILES: &str = "
    net a.csv              -> net: OUT is missing; {net 0}
    net                    -> net: BOOK and OUT are missing; {net 0}
    net --offset           -> net: BOOK and OUT are missing; {net 0}
    join                   -> join: A, B and BOOK are missing; {join 0}
    pack a.csv             -> pack: BOOK is missing; {pack 0}
    pack a.csv --options   -> pack: TABLE is missing; {pack 1}
    unpack --options       -> unpack: TABLE and CSV are missing; {unpack 1}
    completion             -> completion: bash, zsh or fish is missing; {completion 0}
    report ''              -> report: BOOK is empty; {report 0}
    net a.csv ''           -> net: OUT is empty; {net 0}
    report a.csv --table '' -> report: --table is empty
    html a.csv -o=         -> html: -o is empty
    net a.csv b c.csv      -> net: 'c.csv' is one file too many; {net 0}
    report a.csv b.csv     -> report: 'b.csv' is one file too many; {report 0}
    report a.csv b.csv c   -> report: 'b.csv' and another are files too many; {report 0}
    report a.csv b c d     -> report: 'b' and 2 others are files too many; {report 0}
    report a.csv -         -> report: '-' is one file too many; {report 0}
    report -- a.csv --json -> report: '--json' is one file too many, for behind -- no word is an option; {report 0}
    ladder --commodity 5 a.csv b -> ladder: 'b' is one file too many; {ladder 3}
    table a b              -> table: 'b' is one file too many; {table 0}
    version x              -> version: 'x' is one word too many; {version 0}
    help net x             -> help: 'x' is one word too many; {help 0}
    report a.csv json      -> report: 'json' is one file too many; did you mean --json?
    report CSV a.csv       -> report: 'CSV' is one file too many; did you mean --csv?
    ladder a.csv currency 7 -> ladder: 'currency' is one file too many; did you mean --currency?
    ladder a.csv currency=7 -> ladder: 'currency=7' is one file too many; did you mean --currency?
";

/// Options that are missing, or that do not go together.
pub const MISSING: &str = "
    least-trade a.csv -> least-trade: --currency G, --band B, --side long|short and --limit X are missing, $or; {least-trade 0}
    least-trade a.csv --currency 7 --side long --limit 1 -> least-trade: --band B is missing, $or; {least-trade 0}
    least-trade a.csv --currency 7 --band 5 --side long  -> least-trade: --limit X is missing; {least-trade 0}
    least-trade a.csv --currency 7 --days 9 --side long --limit 1 -> least-trade: --coupon C is missing; {least-trade 1}
    least-trade a.csv --coupon 900 --side long --limit 1   -> least-trade: --currency G and --days D are missing; {least-trade 1}
    $all --days 9            -> least-trade: --days D is given where it has no place; {least-trade 0}
    $all --days 9 --coupon 900 -> least-trade: --band B is given where it has no place; {least-trade 1}
    html a.csv                -> html: -o FILE is missing; {html 0}
    html a.csv -o x.html --band 5 --side long --limit 1  -> html: --currency G is missing; {html 1}
    dearest                   -> dearest: --rows K and --most M are missing; {dearest 0}
    dearest --most 5          -> dearest: --rows K is missing; {dearest 0}
    shortest a.csv            -> shortest: -o FILE is missing; {shortest 0}
";

/// Commands, options and their words that are misspelt or in the wrong place.
pub const MEANT: &str = "
    least-trade a.csv --curr 7 -> no option '--curr' of least-trade; did you mean --currency?
    ladder a.csv --curr=7    -> no option '--curr' of ladder; did you mean --currency or --currencies?
    ladder a.csv --hide      -> no option '--hide' of ladder; did you mean --hide-empty?
    report a.csv -json       -> no option '-json' of report; did you mean --json?
    report a.csv --JSON      -> no option '--JSON' of report; did you mean --json?
    report a.csv -j          -> no option '-j' of report; did you mean --json?
    report a.csv -jsn        -> no option '-jsn' of report; did you mean --json?
    report a.csv -help       -> no option '-help' of report; did you mean --help?
    html a.csv --output x    -> no option '--output' of html; did you mean -o?
    html a.csv --out=x       -> no option '--out' of html; did you mean -o?
    shortest a.csv -output x -> no option '-output' of shortest; did you mean -o?
    table -o x               -> no option '-o' of table; did you mean --out?
    table --output x         -> no option '--output' of table; did you mean --out?
    join a.csv b.csv -o x    -> no option '-o' of join; the output is BOOK, without an option: {join 0}
    report a.csv -o x        -> no option '-o' of report; -o is an option of html, shortest, dearest and options
    report a.csv --pairs     -> no option '--pairs' of report; --pairs is an option of net and offset
    report a.csv --currency 7 -> no option '--currency' of report; --currency is an option of ladder, least-trade and html
    least-trade a.csv --side Long  -> least-trade: --side is 'Long', not long or short; did you mean long?
    least-trade a.csv --side lng   -> least-trade: --side is 'lng', not long or short; did you mean long?
    least-trade a.csv --side=SHORT -> least-trade: --side is 'SHORT', not long or short; did you mean short?
    Report a.csv             -> no command 'Report'; did you mean report?
    --report a.csv           -> no command '--report'; did you mean report?
    least a.csv              -> no command 'least'; did you mean least-trade?
    a.csv                    -> no command given before the file a.csv; did you mean market-risk report a.csv?
    sub/two.csv --json       -> no command given before the file sub/two.csv; did you mean market-risk report sub/two.csv?
    --json report a.csv      -> no command given before --json, an option of report and ladder
                             -> no command given, as in market-risk report BOOK; $most; see market-risk --help
";

/// Numbers as people write them.
pub const NUMBERS: &str = "
    $days --coupon 8%        -> --coupon is '8%': $units write it in basis points: 8% is 800
    $days --coupon 8.5       -> --coupon is '8.5': decimals are not taken; write it in basis points: 8.5% is 850
    $days --coupon 8         -> --coupon is 8, which is 0.08%: write it in basis points: 8% is 800; write 0008 if 0.08% is meant
    $coupon --days 5y        -> --days is '5y': $units write it in days: 5y is 1800
    $coupon --days 5~y       -> --days is '5 y': $units write it in days: 5y is 1800
    $coupon --days 18m       -> --days is '18m': $units write it in days: 18m is 540
    $coupon --days 1.5y      -> --days is '1.5y': $units write it in days: 1.5y is 540
    $band --limit 1,000      -> --limit is '1,000', $limit: $parted 1000 if that is meant
    $band --limit 1,000.5    -> --limit is '1,000.5', $limit: $parted 1000.5
    $band --limit 994,5      -> --limit is '994,5', $limit: decimals stand behind a point; write 994.5
    $band --limit 1m         -> --limit is '1m', $limit, with at most three decimals, up to $most
    $dear --most 1,000       -> --most is '1,000': $parted 1000 if that is meant
    $dear --most 1,000,000   -> --most is '1,000,000': $parted 1000000
    dearest --rows +5        -> --rows is '+5': signs are not taken; write 5
    dearest --rows -5        -> --rows is '-5': a number below zero is not taken
";

/// Files that cannot be read or written.
pub const UNUSED: &str = "
    report none.csv         -> none.csv: there is no such file
    report a                -> a: there is no such file; did you mean a.csv?
    report A.CSV            -> A.CSV: there is no such file; did you mean a.csv?
    report desk             -> desk: there is no such file; did you mean Desk.CSV?
    report sub/TWO.csv      -> sub/TWO.csv: there is no such file; did you mean sub/Two.csv or sub/two.csv?
    report a.csv --table b  -> b: there is no such file; did you mean b.csv?
    report none/a.csv       -> none/a.csv: there is no folder none
    report link.csv         -> link.csv: it is a link to a file that is not there
    report sub              -> sub: it is a folder, not a file
    report a.csv/b          -> a.csv/b: $way
    report $long            -> $long: its name is too long
    pack a.csv none/in/x    -> none/in/x: there is no folder none
    pack a.csv sub          -> sub: it is a folder, not a file
    html a.csv -o new/      -> new/: it is named as a folder, not as a file
    pack a.csv b.csv/x      -> b.csv/x: $way
";

/// Words of which nothing speaks for another.
pub const FAR: &str = "
    report a.csv --xyzzy         -> no option '--xyzzy' of report; see market-risk report --help
    report a.csv --x             -> no option '--x' of report; see market-risk report --help
    least-trade a.csv --side buy -> least-trade: --side is 'buy', not long or short
    least-trade a.csv --side -   -> least-trade: --side is '-', not long or short
    ladder a.csv --currency USD  -> --currency is 'USD', not a whole number; write a whole number of 0 to 31
    none.csv                     -> no command 'none.csv'; see market-risk --help
    sub                          -> no command 'sub'; see market-risk --help
    help a.csv                   -> no command 'a.csv'; see market-risk --help
";
