//! The sample journals.

use reference::frame::{read, Message};
use reference::replay::replay;
use samples::script::framed;
use samples::{sample, tail};

/// The replies, split and read.
fn split(replies: &[u8]) -> Vec<Message> {
    let mut messages = Vec::new();
    let mut rest = replies;
    while !rest.is_empty() {
        let length = usize::from(rest[0]) * 256 + usize::from(rest[1]) + 2;
        messages.push(read(&rest[..length]).unwrap());
        rest = &rest[length..];
    }
    messages
}

#[test]
fn the_replay_gives_the_replies_worked_out_by_hand() {
    let script = sample::script();
    let replies = split(&replay(&script.journal()));
    assert_eq!(replies.len(), script.steps.len());
    for (number, (step, reply)) in script.steps.iter().zip(&replies).enumerate() {
        if let Some(expected) = &step.reply {
            assert_eq!(reply, expected, "record {}", number + 1);
        }
    }
}

#[test]
fn the_sample_gets_every_reply_a_replay_can_give() {
    let script = sample::script();
    let journal = script.journal();
    assert!(journal.len() < 150_000, "{}", journal.len());
    let replies = split(&replay(&journal));
    for number in [1, 2, 3, 6, 7, 8] {
        assert!(replies.contains(&Message::Err { number }));
    }
    assert!(replies.contains(&Message::Ok) && replies.contains(&Message::NotFound));
    assert!(replies.iter().any(|r| matches!(r, Message::Value { .. })));
}

#[test]
fn the_mixture_gets_most_refusals_too() {
    let script = sample::script();
    let replies = split(&replay(&script.journal()));
    let mixed = script
        .steps
        .iter()
        .zip(replies)
        .filter(|(s, _)| s.reply.is_none());
    let mixed: Vec<Message> = mixed.map(|(_, reply)| reply).collect();
    for number in [3, 6, 7, 8] {
        let count = mixed
            .iter()
            .filter(|r| **r == Message::Err { number })
            .count();
        assert!(count >= 5, "refusal {number}: {count}");
    }
    let values = mixed.iter().filter(|r| matches!(r, Message::Value { .. }));
    assert!(values.count() > 50);
}

#[test]
fn every_tail_is_answered_as_its_kind_asks() {
    let one = Message::Value {
        value: b"one".to_vec(),
    };
    for (kind, _) in tail::KINDS {
        let journal = tail::journal(kind).unwrap();
        let mut expected = vec![Message::Ok, one.clone()];
        match kind {
            "empty" => expected.clear(),
            "clean" => {}
            _ => expected.push(Message::Err { number: 3 }),
        }
        let bytes: Vec<u8> = expected.iter().flat_map(framed).collect();
        assert_eq!(replay(&journal), bytes, "{kind}");
    }
    assert_eq!(tail::journal("other"), None);
}
