//! Calls at the same time from several threads give what they give one after another.
use compare::{samples, worked_example};
use generator::{any_file, valid_survey, write_survey, Rng};
use llunareth::{Cases, Member, MemberFinding, Refusal, Storey, StoreyFinding, SHEET_MOST, WRITE_MOST};
use std::sync::Barrier;
use std::thread;

const SEED: u64 = 20_260_702;
const THREADS: usize = 8;

/// What the calls give for the records of a file.
#[derive(Debug, PartialEq)]
struct Judged {
    storeys: Vec<StoreyFinding>,
    members: Vec<Cases<MemberFinding>>,
    sheet: Vec<u8>,
    written: Vec<u8>,
}

/// What is printed for a file, and what the calls give for its records.
type Answers = (Vec<u8>, Result<Judged, Refusal>);

fn judged(file: &[u8]) -> Result<Judged, Refusal> {
    let (mut storeys, mut members) = (vec![Storey::default(); 10], vec![Member::default(); 320]);
    let survey = llunareth::read(file, &mut storeys, &mut members)?;
    let (k, form) = (survey.header.knowledge, survey.header.form);
    let (mut found, mut rest) = (Vec::new(), survey.members);
    for storey in survey.storeys {
        let (own, after) = rest.split_at(storey.count as usize);
        found.push(llunareth::judge_storey(k, form, storey, own)?);
        rest = after;
    }
    let (mut sheet, mut written) = (vec![0; SHEET_MOST], vec![0; WRITE_MOST]);
    Ok(Judged {
        storeys: found,
        members: survey.members.iter().map(|m| llunareth::judge_member(k, form, [false; 4], m)).collect::<Result<_, _>>()?,
        sheet: llunareth::report(&survey.header, survey.storeys, survey.members, &mut sheet)?.to_vec(),
        written: llunareth::write(&survey.header, survey.storeys, survey.members, &mut written)?.to_vec(),
    })
}

fn answers(file: &[u8]) -> Answers {
    let mut text = vec![0; SHEET_MOST];
    (llunareth::determine(file, &mut text).to_vec(), judged(file))
}

fn files() -> Vec<Vec<u8>> {
    let mut rng = Rng::new(SEED);
    let good: Vec<_> = (0..40).map(|_| write_survey(&valid_survey(&mut rng))).collect();
    let any = (0..40).map(|_| any_file(&mut rng)).collect();
    [samples::all().into_iter().map(|sample| sample.survey).collect(), good, any, vec![write_survey(&worked_example())]].concat()
}

#[test]
fn calls_from_several_threads() {
    let files = files();
    let expected: Vec<Answers> = files.iter().map(|file| answers(file)).collect();
    assert!(expected.iter().any(|(_, judged)| judged.is_ok()) && expected.iter().any(|(_, judged)| judged.is_err()));
    let (start, files, expected) = (&Barrier::new(THREADS), &files, &expected);
    thread::scope(|scope| {
        for first in 0..THREADS {
            scope.spawn(move || {
                start.wait();
                // Each thread begins at another file.
                for i in (0..files.len()).map(|i| (i + 11 * first) % files.len()) {
                    assert_eq!(answers(&files[i]), expected[i], "file {i}");
                }
            });
        }
    });
}
