//! A refused draw: the error says which distribution it was asked of and what was drawn, and nothing is
//! changed.

mod common;

use common::{any_dist, events, free, machines, Random, Recorded, Source};
use maybenot_link::action::Action;
use maybenot_link::dist::{Dist, DistType};
use maybenot_link::event::Event;
use maybenot_link::state::{State, Trans};
use maybenot_link::{BadDraw, Draws, Framework, Refusal, Refused, Tables, TriggerEvent};

const SENT: [TriggerEvent; 1] = [TriggerEvent::NormalSent];

/// A source that draws the same chance and the same value always.
struct Same(f32, f64);

impl Draws for Same {
    fn word(&mut self) -> u64 {
        0
    }

    fn chance(&mut self) -> f32 {
        self.0
    }

    fn value(&mut self, _: &DistType) -> f64 {
        self.1
    }
}

/// Blocks on each normal packet; the opening draws the limit.
fn blocks(timeout: Dist, duration: Dist, limit: Dist) -> Tables {
    let (bypass, replace, limit) = (false, false, Some(limit));
    let action = Action::BlockOutgoing { bypass, replace, timeout, duration, limit };
    let state = State::new([(Event::NormalSent, vec![Trans(0, 1.0)])]).with_action(action);
    Tables::new(&[free(vec![state])]).unwrap()
}

/// Timeout from 1 to 2, duration from 1.5 to 3, limit from 3 to 4.
fn different() -> Tables {
    blocks(Dist::uniform(1.0, 2.0), Dist::uniform(1.5, 3.0), Dist::uniform(3.0, 4.0))
}

fn bad_value(low: f64, high: f64, drawn: f64) -> Refused {
    BadDraw::Value { dist: Dist::uniform(low, high), drawn }.into()
}

fn bad_chance(drawn: f32) -> Refused {
    BadDraw::Chance { drawn }.into()
}

#[test]
fn of_an_opening() {
    let tables = different();
    let refused = Framework::open(&tables, 0.0, 0.0, 0, Same(0.0, 1.75)).unwrap_err();
    assert_eq!(refused, bad_value(3.0, 4.0, 1.75));
    let refused = Framework::open_with(&tables, 0.0, 0.0, 0, &[4.0, 9.0]).unwrap_err();
    assert_eq!(refused, bad_value(3.0, 4.0, 4.0));
    let refused = Framework::open_with(&tables, 0.0, 0.0, 0, &[]).unwrap_err();
    assert_eq!(refused, Refused::from(Refusal::DrawsUsedUp));
    let refused = Framework::open_with(&tables, 2.0, 0.0, 0, &[4.0]).unwrap_err();
    assert_eq!(refused, Refused::from(Refusal::FrameworkPaddingFraction));
}

#[test]
fn from_a_source() {
    let tables = different();
    let mut framework = Framework::open(&tables, 0.0, 0.0, 0, Same(0.0, 3.5)).unwrap();
    let before = framework.state().to_words();
    let mut refused = |source: Same| {
        let refused = framework.trigger_events(&SENT, 1, source).unwrap_err();
        assert_eq!(framework.state().to_words(), before);
        refused
    };
    assert_eq!(refused(Same(1.0, 1.75)), bad_chance(1.0));
    assert_eq!(refused(Same(-0.5, 1.75)), bad_chance(-0.5));
    assert!(matches!(refused(Same(f32::NAN, 1.75)).draw, Some(BadDraw::Chance { .. })));
    assert_eq!(refused(Same(0.0, 3.5)), bad_value(1.0, 2.0, 3.5));
    // good for the timeout, below the duration
    assert_eq!(refused(Same(0.0, 1.25)), bad_value(1.5, 3.0, 1.25));
    assert_eq!(framework.trigger_events(&SENT, 1, Same(0.0, 1.75)).unwrap().len(), 1);
}

#[test]
fn drawn_ahead() {
    let only = Dist::uniform(1.0, 2.0);
    let tables = blocks(only, only, only);
    let mut framework = Framework::open(&tables, 0.0, 0.0, 0, Same(0.0, 1.5)).unwrap();
    let before = framework.state().to_words();
    let refused = framework.trigger_events(&SENT, 1, Same(0.0, 2.0)).unwrap_err();
    assert_eq!(refused, bad_value(1.0, 2.0, 2.0));
    assert_eq!(framework.state().to_words(), before);
    assert_eq!(framework.trigger_events(&SENT, 1, Same(0.0, 1.5)).unwrap().len(), 1);
}

#[test]
fn from_tapes() {
    let tables = different();
    let (mut framework, _) = Framework::open_with(&tables, 0.0, 0.0, 0, &[3.5]).unwrap();
    let before = framework.state().to_words();
    let mut out = Vec::new();
    let mut refused = |chances: &[f32], values: &[f64]| {
        let refused = framework.batch(1, &[SENT[0]; 2], chances, values, &mut out).unwrap_err();
        assert_eq!(framework.state().to_words(), before);
        assert!(out.is_empty());
        refused
    };
    let good = [1.5, 1.5, 1.5, 1.5];
    assert_eq!(refused(&[1.0, 0.0], &good), bad_chance(1.0));
    assert_eq!(refused(&[0.0, 7.0, 9.0], &good), bad_chance(7.0));
    assert_eq!(refused(&[0.0, 0.0], &[2.0, 9.0, 9.0, 9.0]), bad_value(1.0, 2.0, 2.0));
    assert_eq!(refused(&[0.0, 0.0], &[1.0, 3.0, 9.0, 9.0]), bad_value(1.5, 3.0, 3.0));
    assert_eq!(refused(&[0.0, 0.0], &[1.0, 2.0, 1.0, 1.0]), bad_value(1.5, 3.0, 1.0));
    // the one that is met first
    assert_eq!(refused(&[0.0, 1.5], &[1.0, 1.0]), bad_value(1.5, 3.0, 1.0));
    assert_eq!(refused(&[0.0, 1.5], &[1.0, 2.0, 9.0]), bad_chance(1.5));
    // 16 names no draw, and a bad one that is not taken is none
    assert_eq!(refused(&[0.0], &good), Refused::from(Refusal::DrawsUsedUp));
    let used = framework.batch(1, &SENT, &[0.0, 9.0], &[1.0, 2.0, -1.0], &mut out).unwrap();
    assert_eq!((used.chances, used.values), (1, 2));
}

/// Tapes of a run that was accepted, each with one draw spoilt: the error names that one.
#[test]
fn every_draw_of_a_tape_is_named() {
    let mut random = Random::new(31);
    let mut named = [0; 2];
    for _ in 0..60 {
        let (count, states) = (1 + random.below(3), 1 + random.below(4));
        let tables = Tables::new(&machines(&mut random, count, states, &mut any_dist)).unwrap();
        let mut own = random.clone();
        let mut source = Source(&mut own);
        let mut recorded = Recorded::new(&mut source);
        let framework = Framework::open(&tables, 0.5, 0.5, 0, &mut recorded).unwrap();
        (recorded.values, recorded.asked) = (Vec::new(), Vec::new());
        let happened = events(&mut random, 6, count);
        framework.clone().trigger_events(&happened, 9, &mut recorded).unwrap();
        let (chances, values) = (&recorded.chances, &recorded.values);
        let batch = |chances: &[f32], values: &[f64]| {
            framework.clone().batch(9, &happened, chances, values, &mut Vec::new())
        };
        let used = batch(chances, values).unwrap();
        for k in 0..used.chances {
            let mut spoilt = chances.clone();
            spoilt[k] = 2.0;
            assert_eq!(batch(&spoilt, values), Err(bad_chance(2.0)));
            named[0] += 1;
        }
        for k in 0..used.values {
            let DistType::Uniform { high, .. } = recorded.asked[k] else {
                continue;
            };
            let mut spoilt = values.clone();
            spoilt[k] = high + 0.5;
            let Some(BadDraw::Value { dist, drawn }) = batch(chances, &spoilt).unwrap_err().draw
            else {
                panic!("no value is named");
            };
            assert_eq!((dist.dist, drawn), (recorded.asked[k], high + 0.5));
            named[1] += 1;
        }
    }
    assert!(named[0] > 200 && named[1] > 100, "{named:?}");
}

#[test]
fn errors_are_one_line() {
    let refused = bad_value(1.0, 2.0, 3.5);
    let says = "refused as 17: a draw is out of the range that it was asked for: ";
    assert_eq!(
        refused.to_string(),
        format!("{says}the value 3.5 of Uniform from 1 to 2, start 0, max 0")
    );
    assert_eq!(bad_chance(1.1).to_string(), format!("{says}the chance 1.1"));
    assert_eq!(bad_chance(-1e38).to_string(), format!("{says}the chance -1e38"));
    let refused = bad_value(-1e300, 5e-324, f64::NAN);
    assert_eq!(
        refused.to_string(),
        format!("{says}the value NaN of Uniform from -1e300 to 5e-324, start 0, max 0")
    );
    let error: Box<dyn std::error::Error> = Refused::from(Refusal::EventList).into();
    assert_eq!(error.to_string(), Refusal::EventList.to_string());
    assert_eq!((refused.number(), refused.is_for_draws()), (17, true));
    assert!(!Refused::from(Refusal::FrameworkMisfit).is_for_draws());
    assert_eq!(refused, Refusal::DrawOutOfRange);
}
