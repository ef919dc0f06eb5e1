//! The survey file out of its records in the old form: bytes, refusals, reading
//! back.

mod common;

use common::old::{
    judge_building, read, report, write_survey, Header, Member, Storey, Survey, HEADER_FIELDS,
    MEMBER_FIELDS, STOREY_FIELDS,
};
use common::*;
use independent::determine;

const B_BYTES: usize = 50;
const S_BYTES: usize = 26;
const M_BYTES: usize = 218;

/// Least and most that is accepted in each field, without the counts of the
/// header and of a storey.
const HEADER_ENDS: [(i128, i128); HEADER_FIELDS - 1] = [
    (90, 100),
    (1, 30_000),
    (1, 10),
    (0, 9_999_999),
    (0, 9_999_999),
];
const STOREY_ENDS: [(i128, i128); STOREY_FIELDS - 1] = [(1, 9_999_999), (1, 9_999_999)];
const MEMBER_ENDS: [(i128, i128); MEMBER_FIELDS] = [
    (1, 9_999_999),
    (1, 99_999),
    (1, 99_999),
    (1, 9_999_999),
    (1, 9_999),
    (1, 9_999),
    (1, 99_999),
    (1, 99_999),
    (1, 99_999),
    (1, 9_999),
    (1, 99_999),
    (0, 99_999),
    (0, 1),
    (0, 1),
    (0, 1),
    (0, 100),
    (0, 4),
    (-999_999, 9_999_999),
    (-999_999, 9_999_999),
    (0, 9_999_999),
    (1, 9_999_999),
    (0, 9_999_999),
    (1, 9_999_999),
    (0, 9_999_999),
    (0, 9_999_999),
    (0, 9_999_999),
    (0, 1),
];

fn pair() -> [Member; 2] {
    [member(), second_member()]
}

/// The file of a survey, with room enough.
fn written(survey: &Survey) -> Vec<u8> {
    write_survey(&survey.header, &survey.storeys, &survey.members, usize::MAX).unwrap()
}

/// The example's survey with this as its first member.
fn with_first(m: Member) -> Survey {
    Survey {
        header: header(),
        storeys: vec![storey()],
        members: vec![m, second_member()],
    }
}

/// Reading the file back gives the records, and writing these the file.
fn comes_back(survey: &Survey) -> Vec<u8> {
    let file = written(survey);
    let again = read(&file, survey.storeys.len(), survey.members.len()).unwrap();
    assert_eq!(again, *survey);
    assert_eq!(written(&again), file);
    file
}

/// The number of the refusal, the same as that of judging the building. It
/// comes before 11 and before 9.
fn refusal_of_judging(h: &Header, storeys: &[Storey], members: &[Member]) -> u8 {
    let from_building = refused(judge_building(h, storeys, members));
    for room in [0, 1, usize::MAX] {
        let from_writing = refused(write_survey(h, storeys, members, room));
        assert_eq!(from_writing, from_building);
    }
    assert_eq!(from_building.1, 0);
    from_building.0
}

// ---- the bytes ----

#[test]
fn worked_example() {
    let text = [
        "B     100    9000       3       0       0       1\n",
        "S       1    1000       2\n",
        "M       1     300     300   90000     100     110    2200     270    3000     200",
        "     250     100       0       0       0     100       0    3150    3150     600",
        "     200      60     100     200    9000       0       0\n",
        "M       2     300     300   90000     100     110    2200     270    3000     200",
        "     250     100       0       0       0     100       0    3600    3150     400",
        "     200      60     100     700    9000       0       0\n",
    ]
    .concat();
    let file = write_survey(&header(), &[storey()], &pair(), usize::MAX).unwrap();
    assert_eq!(file, text.as_bytes());
    assert_eq!(file, example_file());
    assert_eq!(file.len(), B_BYTES + S_BYTES + 2 * M_BYTES);
    assert_eq!(determine(&file), EXAMPLE_SHEET.as_bytes());
    comes_back(&with_first(member()));
}

#[test]
fn a_minus() {
    let in_fields_18_and_19 = |n_d, n_k| {
        let file = comes_back(&with_first(Member {
            n_d,
            n_k,
            ..member()
        }));
        let start = B_BYTES + S_BYTES + 1 + 17 * 8;
        String::from_utf8(file[start..start + 16].to_vec()).unwrap()
    };
    assert_eq!(in_fields_18_and_19(-1, -10), "      -1     -10");
    assert_eq!(in_fields_18_and_19(-3_150, 3_150), "   -3150    3150");
    assert_eq!(in_fields_18_and_19(0, -999_999), "       0 -999999");
    assert_eq!(in_fields_18_and_19(-999_999, 9_999_999), " -999999 9999999");
    assert_eq!(in_fields_18_and_19(-999_999, 0), " -999999       0");
}

#[test]
fn the_longest_numbers() {
    let longest = MEMBER_ENDS.map(|(_, most)| most);
    let m = Member {
        n_k: -999_999,
        ..Member::from_fields(&longest)
    };
    let survey = Survey {
        header: Header {
            knowledge: 100,
            height: 30_000,
            storeys: 10,
            tilt_1: 9_999_999,
            tilt_2: 9_999_999,
            storey_count: 1,
        },
        storeys: vec![Storey {
            number: 9_999_999,
            shear: 9_999_999,
            member_count: 1,
        }],
        members: vec![m],
    };
    let text = [
        "B     100   30000      10 9999999 9999999       1\n",
        "S 9999999 9999999       1\n",
        "M 9999999   99999   99999 9999999    9999    9999   99999   99999   99999    9999",
        "   99999   99999       1       1       1     100       4 9999999 -999999 9999999",
        " 9999999 9999999 9999999 9999999 9999999 9999999       1\n",
    ]
    .concat();
    assert_eq!(comes_back(&survey), text.as_bytes());
}

/// Lines are of one length whatever the numbers, so the length follows from
/// the rows alone.
#[test]
fn the_length_of_a_file() {
    let shortest = MEMBER_ENDS.map(|(least, _)| least.max(0));
    let file = comes_back(&with_first(Member::from_fields(&shortest)));
    assert_eq!(file.len(), example_file().len());
}

#[test]
fn ends_of_ranges_come_back() {
    // A member whose sides allow each of them any value.
    let slender = Member {
        long_side: 99_999,
        short_side: 1,
        number: 77,
        ..member()
    };
    for (i, (least, most)) in MEMBER_ENDS.into_iter().enumerate() {
        for value in [least, most] {
            let mut fields = slender.fields();
            fields[i] = value;
            comes_back(&with_first(Member::from_fields(&fields)));
        }
    }
    for (i, (least, most)) in STOREY_ENDS.into_iter().enumerate() {
        for value in [least, most] {
            let mut fields = storey().fields();
            fields[i] = value;
            let mut survey = with_first(member());
            survey.storeys[0] = Storey::from_fields(&fields);
            comes_back(&survey);
        }
    }
    for (i, (least, most)) in HEADER_ENDS.into_iter().enumerate() {
        for value in [least, most] {
            let mut fields = header().fields();
            fields[i] = value;
            let mut survey = with_first(member());
            survey.header = Header::from_fields(&fields);
            comes_back(&survey);
        }
    }
}

/// So many storeys of so many members each, numbered downwards.
fn block(storey_count: u64, member_count: u64) -> Survey {
    let storeys = (1..=storey_count).rev().map(|number| Storey {
        number,
        member_count,
        ..storey()
    });
    let of_one_storey = (1..=member_count)
        .rev()
        .map(|number| Member { number, ..member() });
    Survey {
        header: Header {
            storeys: 10,
            storey_count,
            ..header()
        },
        storeys: storeys.collect(),
        members: (0..storey_count)
            .flat_map(|_| of_one_storey.clone())
            .collect(),
    }
}

#[test]
fn lines_in_survey_order() {
    let mut survey = block(3, 2);
    survey.storeys[0].member_count = 1;
    survey.storeys[2].member_count = 3;
    survey.members[3].number = 7;
    let file = comes_back(&survey);
    let text = String::from_utf8(file).unwrap();
    let heads: Vec<&str> = text.lines().map(|l| l[..9].trim_end()).collect();
    assert_eq!(
        heads,
        [
            "B     100",
            "S       3",
            "M       2",
            "S       2",
            "M       1",
            "M       2",
            "S       1",
            "M       7",
            "M       2",
            "M       1",
        ]
    );
}

#[test]
fn the_largest_file() {
    let survey = block(10, 200);
    let file = comes_back(&survey);
    assert_eq!(file.len(), B_BYTES + 10 * S_BYTES + 2_000 * M_BYTES);
    assert_eq!(file.len(), 436_310);
    let of = |room| write_survey(&survey.header, &survey.storeys, &survey.members, room);
    assert_eq!(refused(of(436_309)), (11, 0));
    assert_eq!(of(436_310).unwrap(), file);
}

// ---- refusals ----

#[test]
fn eleven() {
    let file = example_file();
    let of = |room| write_survey(&header(), &[storey()], &pair(), room);
    for room in 0..file.len() {
        assert_eq!(refused(of(room)), (11, 0));
    }
    assert_eq!(of(file.len()).unwrap(), file);
    assert_eq!(of(file.len() + 1).unwrap(), file);
    assert_eq!(of(usize::MAX).unwrap(), file);
}

/// The room for the sheet has no say here, nor has that for the file there.
#[test]
fn neither_nine_nor_eleven_for_the_other() {
    let sheet = EXAMPLE_SHEET.len();
    let file = example_file().len();
    assert!(sheet < file);
    let written = |room| write_survey(&header(), &[storey()], &pair(), room);
    let reported = |room| report(&header(), &[storey()], &pair(), room);
    assert_eq!(refused(written(sheet - 1)), (11, 0));
    assert_eq!(refused(written(sheet)), (11, 0));
    assert_eq!(refused(reported(sheet - 1)), (9, 0));
    assert!(reported(sheet).is_ok());
}

#[test]
fn one() {
    let of = refusal_of_judging;
    assert_eq!(of(&header(), &[], &[]), 1);
    assert_eq!(of(&header(), &[], &pair()), 1);
    assert_eq!(of(&header(), &[storey(), storey()], &pair()), 1);
    assert_eq!(of(&header(), &[storey()], &[]), 1);
    assert_eq!(of(&header(), &[storey()], &[member()]), 1);
    // A row left over is no part of the survey.
    let spare = [member(), second_member(), Member::default()];
    assert_eq!(of(&header(), &[storey()], &spare), 1);
    // The total is not cut to 64 bits.
    let two = Header {
        storey_count: 2,
        ..header()
    };
    let huge = [u64::MAX, 3].map(|member_count| Storey {
        member_count,
        ..storey()
    });
    assert_eq!(of(&two, &huge, &pair()), 1);
}

#[test]
fn three() {
    let of = refusal_of_judging;
    for (i, (least, most)) in MEMBER_ENDS.into_iter().enumerate() {
        for value in [least - 1, most + 1, i64::MAX as i128, i64::MIN as i128] {
            let mut fields = member().fields();
            fields[i] = value;
            let bad = Member::from_fields(&fields);
            assert_eq!(of(&header(), &[storey()], &[second_member(), bad]), 3);
        }
    }
    for (i, (least, most)) in STOREY_ENDS.into_iter().enumerate() {
        for value in [least - 1, most + 1, u64::MAX as i128] {
            let mut fields = storey().fields();
            fields[i] = value;
            assert_eq!(of(&header(), &[Storey::from_fields(&fields)], &pair()), 3);
        }
    }
    // H_T and n_s are in range to 99,999 and 99.
    let out_of_range = [
        (0, vec![0, 89, 91, 99, 101]),
        (1, vec![0, 100_000]),
        (2, vec![0, 100]),
        (3, vec![10_000_000, u64::MAX as i128]),
        (4, vec![10_000_000, u64::MAX as i128]),
    ];
    for (i, values) in out_of_range {
        for value in values {
            let mut fields = header().fields();
            fields[i] = value;
            assert_eq!(of(&Header::from_fields(&fields), &[storey()], &pair()), 3);
        }
    }
}

#[test]
fn three_for_a_count() {
    let of = |survey: &Survey| refusal_of_judging(&survey.header, &survey.storeys, &survey.members);
    // No storey; more storeys than n_s; no member; 201 members.
    assert_eq!(of(&block(0, 0)), 3);
    let mut low = block(4, 1);
    low.header.storeys = 3;
    assert_eq!(of(&low), 3);
    assert_eq!(of(&block(1, 0)), 3);
    assert_eq!(of(&block(1, 201)), 3);
    // The total is right, the single counts are not.
    let mut uneven = block(2, 1);
    uneven.storeys[0].member_count = 0;
    uneven.storeys[1].member_count = 2;
    uneven.members[1].number = 2;
    assert_eq!(of(&uneven), 3);
}

#[test]
fn four() {
    let of = |short_side| {
        let bad = Member {
            short_side,
            ..second_member()
        };
        refusal_of_judging(&header(), &[storey()], &[member(), bad])
    };
    assert_eq!(of(301), 4);
    assert_eq!(of(99_999), 4);
    assert_eq!(of(100_000), 3);
}

#[test]
fn five() {
    let of = refusal_of_judging;
    assert_eq!(of(&header(), &[storey()], &[member(), member()]), 5);
    let mut survey = block(3, 2);
    survey.storeys[2].number = 3;
    assert_eq!(of(&survey.header, &survey.storeys, &survey.members), 5);
    // The same member numbers in several storeys are no repetition.
    comes_back(&block(3, 2));
}

#[test]
fn seven() {
    let of = |height, storeys| {
        let h = Header {
            height,
            storeys,
            ..header()
        };
        refusal_of_judging(&h, &[storey()], &pair())
    };
    assert_eq!(of(30_001, 3), 7);
    assert_eq!(of(99_999, 99), 7);
    assert_eq!(of(9_000, 11), 7);
    assert_eq!(of(100_000, 11), 3);
}

#[test]
fn order_of_refusals() {
    let mut survey = block(2, 2);
    let of = |survey: &Survey| refusal_of_judging(&survey.header, &survey.storeys, &survey.members);
    // From the last to be found to the first, each added to those before.
    survey.members[3].number = survey.members[2].number;
    assert_eq!(of(&survey), 5);
    survey.members[3].short_side = 301;
    assert_eq!(of(&survey), 4);
    survey.members[3].drift = 10_000_000;
    assert_eq!(of(&survey), 3);
    survey.storeys[1].number = survey.storeys[0].number;
    assert_eq!(of(&survey), 5);
    survey.storeys[1].shear = 0;
    assert_eq!(of(&survey), 3);
    survey.members[1].short_side = 301;
    assert_eq!(of(&survey), 4);
    survey.members[0].m_p = 0;
    assert_eq!(of(&survey), 3);
    survey.header.height = 30_001;
    assert_eq!(of(&survey), 7);
    survey.header.knowledge = 95;
    assert_eq!(of(&survey), 3);
    survey.members.pop();
    assert_eq!(of(&survey), 1);
}

// ---- many surveys ----

/// Numbers drawn from a fixed start.
struct Draw(u64);

impl Draw {
    fn below(&mut self, bound: u64) -> u64 {
        self.0 ^= self.0 << 13;
        self.0 ^= self.0 >> 7;
        self.0 ^= self.0 << 17;
        self.0 % bound
    }

    /// Within the ends, each number of digits about as likely.
    fn within(&mut self, (least, most): (i128, i128)) -> i128 {
        let bound = 10_u64.pow(1 + self.below(7) as u32);
        let size = self.below(bound) as i128;
        let value = if self.below(4) == 0 { -size } else { size };
        value.clamp(least, most)
    }

    fn member(&mut self, number: u64) -> Member {
        let m = Member::from_fields(&MEMBER_ENDS.map(|ends| self.within(ends)));
        let (a, b) = (m.long_side, m.short_side);
        Member {
            number,
            long_side: a.max(b),
            short_side: a.min(b),
            ..m
        }
    }

    fn survey(&mut self) -> Survey {
        let storey_count = 1 + self.below(10);
        let mut survey = block(storey_count, 1);
        survey.header.tilt_1 = self.within((0, 9_999_999)) as u64;
        survey.header.tilt_2 = self.within((0, 9_999_999)) as u64;
        survey.members.clear();
        for s in &mut survey.storeys {
            s.shear = self.within((1, 9_999_999)) as u64;
            s.member_count = 1 + self.below(5);
            let first = 1 + self.below(9_000_000);
            for i in 0..s.member_count {
                survey.members.push(self.member(first + i));
            }
        }
        survey
    }
}

#[test]
fn surveys_come_back() {
    let mut draw = Draw(20_210_001);
    for _ in 0..500 {
        let survey = draw.survey();
        let file = comes_back(&survey);
        let (h, storeys, members) = (&survey.header, &survey.storeys, &survey.members);
        let length = B_BYTES + storeys.len() * S_BYTES + members.len() * M_BYTES;
        assert_eq!(file.len(), length);
        assert_eq!(write_survey(h, storeys, members, length).unwrap(), file);
        let short = write_survey(h, storeys, members, length - 1);
        assert_eq!(refused(short), (11, 0));
        // The sheet of the file is the sheet of the records.
        let sheet = report(h, storeys, members, usize::MAX).unwrap();
        assert_eq!(determine(&file), sheet);
    }
}

/// What judging accepts is written; what it refuses is refused alike.
#[test]
fn surveys_with_a_fault_or_none() {
    let mut draw = Draw(20_210_002);
    let mut accepted = 0;
    for _ in 0..500 {
        let mut survey = draw.survey();
        let place = draw.below(survey.members.len() as u64) as usize;
        let field = draw.below(MEMBER_FIELDS as u64) as usize;
        let mut fields = survey.members[place].fields();
        fields[field] = draw.within((-9_999_999, 10_000_000));
        survey.members[place] = Member::from_fields(&fields);
        let (h, storeys, members) = (&survey.header, &survey.storeys, &survey.members);
        let judged = judge_building(h, storeys, members);
        let file = write_survey(h, storeys, members, usize::MAX);
        assert_eq!(file.as_ref().err(), judged.as_ref().err());
        if file.is_ok() {
            comes_back(&survey);
            accepted += 1;
        }
    }
    assert!(accepted > 100 && accepted < 400, "{accepted}");
}

/// An accepted file, read and written, is the same bytes.
#[test]
fn accepted_files_come_back() {
    let mut draw = Draw(20_210_003);
    let mut accepted = 0;
    for _ in 0..4_000 {
        let mut file = example_file();
        for _ in 0..=draw.below(2) {
            let place = draw.below(file.len() as u64) as usize;
            file[place] = b"0123456789 -\nBSM"[draw.below(16) as usize];
        }
        if let Ok(survey) = read(&file, 10, 320) {
            assert_eq!(written(&survey), file);
            accepted += 1;
        }
    }
    assert!(accepted > 400, "{accepted}");
}
