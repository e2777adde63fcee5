//! The examples of the source's grammar document, one entry each.
//!
//! Comments above an example are dividing space and stay part of it.

use super::{count, no, Sample, Want};

const fn same(text: &'static str, want: Want) -> Sample {
    super::both(text.as_bytes(), want)
}

const fn apart(text: &'static str, one: Want, two: Want) -> Sample {
    super::each(text.as_bytes(), one, two)
}

const fn retired(text: &'static str, place: usize, old: Want) -> Sample {
    super::retired(text.as_bytes(), place, old)
}

pub const EXAMPLES: &[Sample] = &[
    // SYNOPSIS
    same(
        r#"`Muldis_Content_Predicate
MCP version https://muldis.com 0.300.0 MCP
MCP script Unicode 2.1 UTF-8 MCP
MCP syntax Muldis_Object_Notation https://muldis.com 0.300.0 MCP
MCP model Muldis_Data_Language https://muldis.com 0.300.0 MCP
Muldis_Content_Predicate`

(Relation:{
    (name : "Jane Ives", birth_date : 0Lci@y1971|m11|d06,
        phone_numbers : (Set:{"+1.4045552995", "+1.7705557572"})),
    (name : "Layla Miller", birth_date : 0Lci@y1995|m08|d27,
        phone_numbers : (Set:{})),
    (name : "岩倉 玲音", birth_date : 0Lci@y1984|m07|d06,
        phone_numbers : (Set:{"+81.9072391679"})),
})"#,
        no(7, 256),
    ),
    // UNIX Shebang Interpreter Directive
    same(r#"#!/usr/bin/env muldisre"#, no(6, 23)),
    // Script / Character Encoding
    same(
        r#"`Muldis_Content_Predicate
MCP version https://muldis.com 0.300.0 MCP
MCP script Unicode 2.1 UTF-8 MCP
MCP syntax Muldis_Object_Notation https://muldis.com 0.300.0 MCP
MCP model Muldis_Data_Language https://muldis.com 0.300.0 MCP
Muldis_Content_Predicate`"#,
        no(6, 254),
    ),
    // Entity markers
    same(
        r#"(
    `$$$` My_Func : (Article:(::Function : ...)),

    `$$$` My_Proc_1 : (Article:(::Procedure : ...)),

    `$$$` My_Proc_2 : (Article:(::Procedure : ...)),
)"#,
        no(7, 22),
    ),
    // Ignorance
    same(r#"0sIGNORANCE"#, count(1)),
    // Boolean
    same(r#"0bFALSE"#, count(1)),
    same(r#"0bTRUE"#, count(1)),
    // Integer
    same(r#"0"#, count(1)),
    same(r#"1"#, count(1)),
    same(r#"-3"#, count(1)),
    same(r#"+42"#, count(1)),
    same(
        r#"`USA national debt in US dollars close to midnight of 2017 Dec 31.`
20_597_460_196_915"#,
        count(1),
    ),
    same(
        r#"`Mersenne Prime 2^521-1, 157 digits, discovered 1952 Jan 30.`
68_64797
    66013_06097_14981_90079_90813_93217_26943_53001_43305_40939
    44634_59185_54318_33976_56052_12255_96406_61454_55497_72963
    11391_48085_80371_21987_99971_66438_12574_02829_11150_57151"#,
        count(1),
    ),
    same(r#"0d39"#, count(1)),
    same(r#"0xDEADBEEF"#, count(1)),
    same(r#"0o644"#, count(1)),
    same(r#"0b11001001"#, count(1)),
    // Bits
    same(r#"0bb"#, count(1)),
    same(r#"0bb00101110100010"#, count(1)),
    same(r#"0bb00101110_100010"#, count(1)),
    same(r#"0bo644"#, count(1)),
    same(r#"0bxA705E"#, count(1)),
    // Blob
    same(r#"0xx"#, count(1)),
    same(r#"0xxA705E416"#, count(1)),
    same(r#"0xxA705_E416"#, count(1)),
    same(r#"0xb00101110_10001011"#, count(1)),
    same(
        r#"`A quote from Thomas Hobbes' "Leviathan", as UTF-8 text encoded in Base64.`
0xy
    TWFuIGlzIGRpc3Rpbmd1aXNoZWQsIG5vdCBvbmx5IGJ5IGhpcyByZWFzb24sIGJ1dCBieSB0aGlz
    IHNpbmd1bGFyIHBhc3Npb24gZnJvbSBvdGhlciBhbmltYWxzLCB3aGljaCBpcyBhIGx1c3Qgb2Yg
    dGhlIG1pbmQsIHRoYXQgYnkgYSBwZXJzZXZlcmFuY2Ugb2YgZGVsaWdodCBpbiB0aGUgY29udGlu
    dWVkIGFuZCBpbmRlZmF0aWdhYmxlIGdlbmVyYXRpb24gb2Yga25vd2xlZGdlLCBleGNlZWRzIHRo
    ZSBzaG9ydCB2ZWhlbWVuY2Ugb2YgYW55IGNhcm5hbCBwbGVhc3VyZS4="#,
        count(1),
    ),
    // Text / Attribute Name
    same(r#""""#, count(1)),
    same(r#"Ceres"#, count(1)),
    same(r#""サンプル""#, count(1)),
    same(r#""\This isn't not escaped.\n""#, count(1)),
    same(r#""\\<0cx263A>\<0c65>""#, count(1)),
    same(
        r#"`One non-ordered quoted Text (or, one named attribute).`
"sales""#,
        count(1),
    ),
    same(
        r#"`Same thing but nonquoted.`
sales"#,
        count(1),
    ),
    same(
        r#"`One attribute name with a space in it.`
"First Name""#,
        count(1),
    ),
    same(
        r#"`One ordered nonquoted Text (or, one ordered attribute).`
0c0"#,
        count(1),
    ),
    same(
        r#"`Same Text value (or, one ordered attr written in format of a named).`
"\\<0c0>""#,
        count(1),
    ),
    same(
        r#"`From a graduate student (in finals week), the following haiku:`
"\study, write, study,\n"
    "\do review (each word) if time.\n"
    "\close book. sleep? what's that?\n""#,
        count(1),
    ),
    // Nesting / Attribute Name List
    same(r#"::person"#, count(1)),
    same(r#"::person::birth_date"#, count(1)),
    same(r#"::person::birth_date::year"#, count(1)),
    same(r#"::the_db::stats::"samples by order""#, count(1)),
    // Pair
    same(
        r#"`Pair of Integer.`
(5: -3)"#,
        count(3),
    ),
    same(
        r#"`Pair of Text.`
("First Name": Joy)"#,
        count(3),
    ),
    same(
        r#"`Another Pair.`
(x:y)"#,
        count(3),
    ),
    same(
        r#"`Same thing.`
(x->y)"#,
        count(3),
    ),
    retired(
        r#"`Same thing.`
(y<-x)"#,
        16,
        count(3),
    ),
    // Tuple / Attribute Set
    same(
        r#"`Zero attributes.`
()"#,
        count(1),
    ),
    same(
        r#"`One named attribute.`
("First Name": Joy,)"#,
        count(3),
    ),
    same(
        r#"`One ordered attribute.`
(53,)"#,
        count(2),
    ),
    same(
        r#"`Same thing.`
(0c0: 53,)"#,
        count(3),
    ),
    same(
        r#"`Same thing.`
("\\<0c0>": 53,)"#,
        count(3),
    ),
    same(
        r#"`Three named attributes.`
(
    login_name : hartmark,
    login_pass : letmein,
    is_special : 0bTRUE,
)"#,
        count(7),
    ),
    same(
        r#"`Three ordered attributes.`
(hello,26,0bTRUE)"#,
        count(4),
    ),
    same(
        r#"`One of each.`
(Jay, age: 10)"#,
        count(4),
    ),
    same(
        r#"`A non-Latin name.`
("サンプル": "http://example.com",)"#,
        count(3),
    ),
    same(
        r#"`Two named attributes.`
(
    name : Michelle,
    age  : 17,
)"#,
        count(5),
    ),
    same(
        r#"`Five leaf attributes in nested multi-level namespace.`
(
    name: "John Glenn",
    ::birth_date::year: 1921,
    comment: "Fly!",
    ::birth_date::month: 7,
    ::birth_date::day: 18,
)"#,
        count(11),
    ),
    same(
        r#"`Same thing.`
(
    name: "John Glenn",
    birth_date: (
        year: 1921,
        month: 7,
        day: 18,
    ),
    comment: "Fly!",
)"#,
        count(13),
    ),
    // Lot
    same(
        r#"`Zero members.`
{}"#,
        count(1),
    ),
    same(
        r#"`One member.`
{ "The lonely only." }"#,
        count(2),
    ),
    same(
        r#"`Four members.`
{
    Clubs  :  5,
    Diamonds,
    Hearts : 10,
    Spades : 20,
}"#,
        count(8),
    ),
    // Fraction
    same(r#"0.0"#, count(1)),
    same(r#"1.0"#, count(1)),
    same(r#"-4.72"#, count(1)),
    same(r#"+4.72"#, count(1)),
    same(r#"0/1"#, count(1)),
    same(r#"1/1"#, count(1)),
    same(r#"5/3"#, count(1)),
    same(r#"-472/100"#, count(1)),
    same(r#"+472/100"#, count(1)),
    same(r#"15_485_863/32_452_843"#, count(1)),
    same(
        r#"`First 101 digits of transcendental number π.`
3.14159_26535_89793_23846_26433_83279_50288_41971_69399_37510
    58209_74944_59230_78164_06286_20899_86280_34825_34211_70679"#,
        count(1),
    ),
    same(
        r#"`Mersenne Primes 2^107-1 divided by 2^127-1.`
162259276829213363391578010288127
    /170141183460469231731687303715884105727"#,
        count(1),
    ),
    same(r#"4.5207196*10^37"#, count(1)),
    same(r#"0xDEADBEEF.FACE"#, count(1)),
    same(r#"-0o35/0o3"#, count(1)),
    same(r#"0b1.1"#, count(1)),
    same(r#"0b1.011101101*0b10^-0b11011"#, count(1)),
    // Calendar Time
    same(
        r#"`No measurement was taken or specified at all.`
0Lct"#,
        no(7, 48),
    ),
    same(
        r#"`Either an unspecified period in 1970 or a duration of 1970 years.`
0Lct@y1970"#,
        no(7, 68),
    ),
    same(
        r#"`Either a civil calendar date 2015-5-3 or a duration of 2015y+5m+3d.`
0Lct@y2015|m5|d3"#,
        no(7, 70),
    ),
    same(
        r#"`Either a military calendar date 1998-300 or a duration of 1998y+300d.`
0Lct@y1998|d300"#,
        no(7, 72),
    ),
    same(
        r#"`Either the 6th week of 1776 or a duration of 1776 years + 6 weeks.`
0Lct@y1776|d42"#,
        no(7, 69),
    ),
    same(
        r#"`Either the first quarter of 1953 or a duration of 1953.25 years.`
0Lct@y1953.25"#,
        no(7, 67),
    ),
    same(
        r#"`Either high noon on an unspecified day or a duration of 12 hours.`
0Lct@h12|i0|s0"#,
        no(7, 68),
    ),
    same(
        r#"`Either a fully specified civil date and time or a 6-part duration.`
0Lct@y1884|m10|d17|h20|i55|s30"#,
        no(7, 69),
    ),
    same(
        r#"`Either an ancient date and time or a negative duration.`
0Lct@y-370|m1|d24|h11|i0|s0"#,
        no(7, 58),
    ),
    same(
        r#"`Either a time on some unspecified day or a duration of seconds.`
0Lct@s5923.21124603"#,
        no(7, 66),
    ),
    // Calendar Duration
    same(
        r#"`Addition of 2 years and 3 months.`
0Lcd@y2|m3|d0|h0|i0|s0"#,
        no(7, 36),
    ),
    same(
        r#"`Subtraction of 22 hours.`
0Lcd@y0|m0|d0|h-22|i0|s0"#,
        no(7, 27),
    ),
    // Calendar Instant
    same(
        r#"`The Day The Music Died (if paired with Gregorian calendar).`
0Lci@y1959|m2|d3"#,
        no(7, 62),
    ),
    same(
        r#"`A time of day when one might have breakfast.`
0Lci@h7|i30|s0"#,
        no(7, 47),
    ),
    same(
        r#"`What was now in the Pacific zone (if paired with Gregorian calendar).`
0Lci@y2018|m9|d3|h20|i51|s17@h-8|i0|s0"#,
        no(7, 72),
    ),
    same(
        r#"`A time of day in the UTC zone on an unspecified day.`
0Lci@h9|i25|s0@h0|i0|s0"#,
        no(7, 55),
    ),
    same(
        r#"`A specific day and time in the Pacific Standard Time zone.`
0Lci@y2001|m4|d16|h20|i1|s44@"PST""#,
        no(7, 61),
    ),
    // Geographic Point
    same(
        r#"`No specified coordinates at all.`
0Lgp"#,
        no(7, 35),
    ),
    same(
        r#"`Just an elevation specified.`
0Lgp@+920"#,
        no(7, 31),
    ),
    same(
        r#"`Geographic surface coordinates of Googleplex; elevation not specified.`
0Lgp@>-122.0857017|^37.4218363"#,
        no(7, 73),
    ),
    same(
        r#"`Same thing.`
0Lgp@^37.4218363|>-122.0857017"#,
        no(7, 14),
    ),
    same(
        r#"`Some location with all coordinates specified.`
0Lgp@>-101|^-70|+1000"#,
        no(7, 48),
    ),
    same(
        r#"`Another place.`
0Lgp@>-94.746094|^37.483577"#,
        no(7, 17),
    ),
    // Array
    apart(
        r#"`Zero members.`
(Array:{})"#,
        no(7, 16),
        count(1),
    ),
    apart(
        r#"`One member.`
(Array:{ "You got it!" })"#,
        no(7, 14),
        count(2),
    ),
    apart(
        r#"`Three members.`
(Array:{
    Alphonse,
    Edward,
    Winry,
})"#,
        no(7, 17),
        count(4),
    ),
    apart(
        r#"`Five members (1 duplicate).`
(Array:{
    57,
    45,
    63,
    61,
    63,
})"#,
        no(7, 30),
        count(6),
    ),
    apart(
        r#"`32 members (28 duplicates in 2 runs).`
(Array:{
    "/",
    "*" : 20,
    "+" : 10,
    "-",
})"#,
        no(7, 40),
        count(7),
    ),
    // Set
    apart(
        r#"`Zero members.`
(Set:{})"#,
        no(7, 16),
        count(1),
    ),
    apart(
        r#"`One member.`
(Set:{ "I know this one!" })"#,
        no(7, 14),
        count(2),
    ),
    apart(
        r#"`Four members (no duplicates).`
(Set:{
    Canada,
    Spain,
    Jordan,
    Jordan,
    Thailand,
})"#,
        no(7, 32),
        count(6),
    ),
    apart(
        r#"`Three members.`
(Set:{
    3,
    16,
    85,
})"#,
        no(7, 17),
        count(4),
    ),
    apart(
        r#"`Two members.`
(Set:{
    21 : 0bTRUE,
    62 : 0bFALSE,
    3 : 0bTRUE,
    101 : 0bFALSE,
})"#,
        no(7, 15),
        count(9),
    ),
    // Bag / Multiset
    apart(
        r#"`Zero members.`
(Bag:{})"#,
        no(7, 16),
        count(1),
    ),
    apart(
        r#"`One member.`
(Bag:{ "I hear that!": 1 })"#,
        no(7, 14),
        count(3),
    ),
    apart(
        r#"`1200 members (1197 duplicates).`
(Bag:{
    Apple  : 500,
    Orange : 300,
    Banana : 400,
})"#,
        no(7, 34),
        count(7),
    ),
    apart(
        r#"`Six members (2 duplicates).`
(Bag:{
    Foo : 1,
    Quux : 1,
    Foo : 1,
    Bar : 1,
    Baz : 1,
    Baz : 1,
})"#,
        no(7, 30),
        count(13),
    ),
    // Mix
    same(
        r#"`Zero members; we measured zero of nothing in particular.`
(Mix:{})"#,
        no(7, 59),
    ),
    same(
        r#"`One member; one gram of mass.`
(Mix:{::Gram: 1.0})"#,
        no(7, 32),
    ),
    same(
        r#"`29.95 members (28.95 duplicates); the cost of a surgery.`
(Mix:{::USD: 29.95})"#,
        no(7, 59),
    ),
    same(
        r#"`9.8 members; acceleration under Earth's gravity.`
(Mix:{::Meter_Per_Second_Squared: 9.8})"#,
        no(7, 51),
    ),
    same(
        r#"`0.615 members (fractions of 3 distinct members); recipe.`
(Mix:{
    ::Butter : 0.22,
    ::Sugar  : 0.1,
    ::Flour  : 0.275,
    ::Sugar  : 0.02,
})"#,
        no(7, 59),
    ),
    same(
        r#"`4/3 members (fractions of 3 distinct members); this-mix.`
(Mix:{
    Sugar: 1/3,
    Spice: 1/4,
    All_Things_Nice: 3/4,
})"#,
        no(7, 59),
    ),
    same(
        r#"`-1.5 members; adjustment for recipe.`
(Mix:{
    Rice: +4.0,
    Beans: -5.7,
    Carrots: +0.2,
})"#,
        no(7, 39),
    ),
    // Interval
    apart(
        r#"`Empty interval (zero members).`
[]"#,
        no(7, 33),
        count(1),
    ),
    apart(
        r#"`Unit interval (one member).`
[abc]"#,
        no(7, 30),
        count(2),
    ),
    apart(
        r#"`Closed interval (probably 10 members, depending on the model used).`
[1 <=*<= 10]"#,
        no(7, 70),
        count(3),
    ),
    apart(
        r#"`Same thing.`
[1..10]"#,
        no(7, 14),
        count(3),
    ),
    apart(
        r#"`Left-closed, right-open interval; every Fraction x in [2.7<=x<9.3].`
[2.7 <=*< 9.3]"#,
        no(7, 70),
        count(3),
    ),
    apart(
        r#"`Left-open, right-closed interval; every Text x ordered in [a<x<=z].`
[a <*<= z]"#,
        no(7, 70),
        count(3),
    ),
    apart(
        r#"`Open interval; time period between Dec 6 and 20 excluding both.`
[0Lci@y2002|m12|d6@"UTC" <*< 0Lci@y2002|m12|d20@"UTC"]"#,
        no(7, 66),
        no(7, 67),
    ),
    apart(
        r#"`Left-unbounded, right-closed interval; every Integer x where x <= 3.`
[*<= 3]"#,
        no(7, 71),
        count(2),
    ),
    apart(
        r#"`Left-closed, right-unbounded interval; every Integer x where 29 <= x.`
[29 <=*]"#,
        no(7, 72),
        count(2),
    ),
    apart(
        r#"`Universal interval; unbounded; every value of type system is a member.`
[*]"#,
        no(7, 73),
        count(1),
    ),
    // Interval Set
    same(
        r#"`Empty interval-set (zero members).`
(Interval_Set:{})"#,
        no(7, 37),
    ),
    same(
        r#"`Unit interval-set (one member).`
(Interval_Set:{abc})"#,
        no(7, 34),
    ),
    same(
        r#"`Probably 10 members, depending on the model used.`
(Interval_Set:{1<=*<=10})"#,
        no(7, 52),
    ),
    same(
        r#"`Same thing.`
(Interval_Set:{1..10})"#,
        no(7, 14),
    ),
    same(
        r#"`Probably 6 members.`
(Interval_Set:{1..3,6,8..9})"#,
        no(7, 22),
    ),
    same(
        r#"`Every Integer x except for {4..13,22..28}`
(Interval_Set:{*<=3,14..21,29<=*})"#,
        no(7, 44),
    ),
    same(
        r#"`Set of all valid Unicode code points.`
(Interval_Set:{0..0xD7FF,0xE000..0x10FFFF})"#,
        no(7, 40),
    ),
    same(
        r#"`Probably 15 members (no duplicates), depending on the model used.`
(Interval_Set:{1..10,6..15})"#,
        no(7, 68),
    ),
    same(
        r#"`Probably same thing, regardless of data model used.`
(Interval_Set:{1<=*<6,6..10:2,10<*<=15})"#,
        no(7, 54),
    ),
    // Interval Bag
    same(
        r#"`Empty interval-bag (zero members).`
(Interval_Bag:{})"#,
        no(7, 37),
    ),
    same(
        r#"`Unit interval-bag (one member).`
(Interval_Bag:{abc})"#,
        no(7, 34),
    ),
    same(
        r#"`Five members (4 duplicates).`
(Interval_Bag:{def:5})"#,
        no(7, 31),
    ),
    same(
        r#"`Probably 20 members (5 duplicates), depending on the model used.`
(Interval_Bag:{1<=*<=10,6<=*<=15})"#,
        no(7, 67),
    ),
    same(
        r#"`Same thing.`
(Interval_Bag:{1..10,6..15})"#,
        no(7, 14),
    ),
    same(
        r#"`Probably same thing, regardless of data model used.`
(Interval_Bag:{1<=*<6,6..10:2,10<*<=15})"#,
        no(7, 54),
    ),
    // Heading / Attribute Name Set
    same(
        r#"`Zero attributes.`
(Heading:())"#,
        no(7, 19),
    ),
    same(
        r#"`One named attribute.`
(Heading:(sales))"#,
        no(7, 23),
    ),
    same(
        r#"`Same thing.`
(Heading:("sales"))"#,
        no(7, 14),
    ),
    same(
        r#"`One ordered attribute.`
(Heading:(0c0))"#,
        no(7, 25),
    ),
    same(
        r#"`Same thing.`
(Heading:("\\<0c0>"))"#,
        no(7, 14),
    ),
    same(
        r#"`Three named attributes.`
(Heading:(region,revenue,qty))"#,
        no(7, 26),
    ),
    same(
        r#"`Three ordered attributes.`
(Heading:(0c0,0c1,0c2))"#,
        no(7, 28),
    ),
    same(
        r#"`One of each.`
(Heading:(0c1,age))"#,
        no(7, 15),
    ),
    same(
        r#"`Some attribute names can only appear quoted.`
(Heading:("Street Address"))"#,
        no(7, 47),
    ),
    same(
        r#"`A non-Latin name.`
(Heading:("サンプル"))"#,
        no(7, 20),
    ),
    // Tuple Array
    same(
        r#"`Zero attributes + zero tuples.`
(Tuple_Array:())"#,
        no(7, 33),
    ),
    same(
        r#"`Zero attributes + one tuple.`
(Tuple_Array:{()})"#,
        no(7, 31),
    ),
    same(
        r#"`Three named attributes + zero tuples.`
(Tuple_Array:(x,y,z))"#,
        no(7, 40),
    ),
    same(
        r#"`Three positional attributes + zero tuples.`
(Tuple_Array:(0c0,0c1,0c2))"#,
        no(7, 45),
    ),
    same(
        r#"`Two named attributes + three tuples (1 duplicate).`
(Tuple_Array:{
    (name: Amy     , age: 14),
    (name: Michelle, age: 17),
    (name: Amy     , age: 14),
})"#,
        no(7, 53),
    ),
    same(
        r#"`Two positional attributes + two tuples.`
(Tuple_Array:{
    (Michelle, 17),
    (Amy     , 14),
})"#,
        no(7, 42),
    ),
    // Relation / Tuple Set
    same(
        r#"`Zero attributes + zero tuples.`
(Relation:())"#,
        no(7, 33),
    ),
    same(
        r#"`Zero attributes + one tuple.`
(Relation:{()})"#,
        no(7, 31),
    ),
    same(
        r#"`Three named attributes + zero tuples.`
(Relation:(x,y,z))"#,
        no(7, 40),
    ),
    same(
        r#"`Three positional attributes + zero tuples.`
(Relation:(0c0,0c1,0c2))"#,
        no(7, 45),
    ),
    same(
        r#"`Two named attributes + two tuples.`
(Relation:{
    (name: Michelle, age: 17),
    (name: Amy     , age: 14),
})"#,
        no(7, 37),
    ),
    same(
        r#"`Two positional attributes + two tuples.`
(Relation:{
    (Michelle, 17),
    (Amy     , 14),
})"#,
        no(7, 42),
    ),
    same(
        r#"`Some people records.`
(Relation:{
    (name : "Jane Ives", birth_date : 0Lci@y1971|m11|d06,
        phone_numbers : (Set:{"+1.4045552995", "+1.7705557572"})),
    (name : "Layla Miller", birth_date : 0Lci@y1995|m08|d27,
        phone_numbers : (Set:{})),
    (name : "岩倉 玲音", birth_date : 0Lci@y1984|m07|d06,
        phone_numbers : (Set:{"+81.9072391679"})),
})"#,
        no(7, 23),
    ),
    // Tuple Bag
    same(
        r#"`Zero attributes + zero tuples.`
(Tuple_Bag:())"#,
        no(7, 33),
    ),
    same(
        r#"`Zero attributes + one tuple.`
(Tuple_Bag:{()})"#,
        no(7, 31),
    ),
    same(
        r#"`Three named attributes + zero tuples.`
(Tuple_Bag:(x,y,z))"#,
        no(7, 40),
    ),
    same(
        r#"`Three positional attributes + zero tuples.`
(Tuple_Bag:(0c0,0c1,0c2))"#,
        no(7, 45),
    ),
    same(
        r#"`Two named attributes + six tuples (4 duplicates).`
(Tuple_Bag:{
    (name: Michelle, age: 17),
    (name: Amy     , age: 14) : 5,
})"#,
        no(7, 52),
    ),
    same(
        r#"`Two positional attributes + two tuples.`
(Tuple_Bag:{
    (Michelle, 17),
    (Amy     , 14),
})"#,
        no(7, 42),
    ),
    // Article / Labelled Tuple
    same(r#"(Article:(::Point : (x : 5, y : 3)))"#, no(7, 0)),
    same(
        r#"(Article:(::Float : (
    significand : 45207196,
    radix       : 10,
    exponent    : 37,
)))"#,
        no(7, 0),
    ),
    same(
        r#"(Article:(::the_db::UTCDateTime : (
    year   : 2003,
    month  : 10,
    day    : 26,
    hour   : 1,
    minute : 30,
    second : 0.0,
)))"#,
        no(7, 0),
    ),
    same(r#"(Article:::Positive_Infinity)"#, no(7, 0)),
    same(r#"(Article:::Negative_Zero)"#, no(7, 0)),
    // Excuse
    same(
        r#"(Excuse:(::Input_Field_Wrong : (name : "Your Age")))"#,
        no(7, 0),
    ),
    same(r#"(Excuse:::Div_By_Zero)"#, no(7, 0)),
    same(r#"(Excuse:::No_Such_Attr_Name)"#, no(7, 0)),
    // Renaming / Attribute Name Map
    same(
        r#"`Zero renamings, a no-op.`
(Renaming:())"#,
        no(7, 27),
    ),
    same(
        r#"`Also a no-op.`
(Renaming:(age->age))"#,
        no(7, 16),
    ),
    same(
        r#"`Rename one attribute.`
(Renaming:(fname->first_name))"#,
        no(7, 24),
    ),
    same(
        r#"`Same thing.`
(Renaming:(first_name:fname))"#,
        no(7, 14),
    ),
    same(
        r#"`Swap 2 named attributes.`
(Renaming:(foo->bar,foo<-bar))"#,
        no(7, 27),
    ),
    same(
        r#"`Convert ordered names to nonordered.`
(Renaming:(->foo,->bar))"#,
        no(7, 39),
    ),
    same(
        r#"`Same thing.`
(Renaming:(0c0->foo,0c1->bar))"#,
        no(7, 14),
    ),
    same(
        r#"`Convert nonordered names to ordered.`
(Renaming:(<-foo,<-bar))"#,
        no(7, 39),
    ),
    same(
        r#"`Same thing.`
(Renaming:(0c0:foo,0c1<-bar))"#,
        no(7, 14),
    ),
    same(
        r#"`Swap 2 ordered attributes.`
(Renaming:(0c0->0c1,0c0<-0c1))"#,
        no(7, 29),
    ),
    same(
        r#"`Same thing.`
(Renaming:(->0c1,->0c0))"#,
        no(7, 14),
    ),
    same(
        r#"`Some attribute names can only appear quoted.`
(Renaming:("First Name"->"Last Name"))"#,
        no(7, 47),
    ),
    // Said in running text
    same(r#"10_000_000"#, count(1)),
    same(r#"20_194/17"#, count(1)),
    same(r#"3.141_59"#, count(1)),
    same(r#"29 56 14 09"#, count(1)),
    same(r#"29 56, 14 09"#, no(6, 5)),
    same(r#"- 29 / 14 * 2 ^ - 6"#, count(1)),
];
