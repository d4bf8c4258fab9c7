//! The mailboxes: of each task its messages, in order.

use crate::tasks::Letter;

#[derive(Clone, Debug)]
pub struct Mailboxes {
    /// Of each task its messages. Place 0 stays empty.
    boxes: Vec<Vec<Letter>>,
    /// How often each message lies in the mailboxes: at most once, but in a state that no session reaches.
    lying: [u8; 256],
}

impl Mailboxes {
    pub fn fresh(tasks: u8) -> Self {
        Mailboxes { boxes: vec![Vec::new(); usize::from(tasks) + 1], lying: [0; 256] }
    }

    /// Whether the message lies in any mailbox.
    pub fn holds(&self, message: u8) -> bool {
        self.lying[usize::from(message)] > 0
    }

    /// Lowest sender first, equal senders in order of sending.
    pub fn insert(&mut self, task: u8, letter: Letter) {
        let mailbox = &self.boxes[usize::from(task)];
        let place = mailbox.iter().position(|other| other.sender > letter.sender).unwrap_or(mailbox.len());
        self.put(task, place, letter);
    }

    /// Behind all messages of the mailbox, whoever sent them.
    pub fn append(&mut self, task: u8, letter: Letter) {
        self.put(task, self.boxes[usize::from(task)].len(), letter);
    }

    /// Takes out the first message, or the first from a sender other than 0.
    pub fn take(&mut self, task: u8, sender: u8) -> Option<Letter> {
        let mailbox = &mut self.boxes[usize::from(task)];
        let place = mailbox.iter().position(|letter| sender == 0 || letter.sender == sender)?;
        let letter = mailbox.remove(place);
        self.lying[usize::from(letter.message)] -= 1;
        Some(letter)
    }

    /// Gives the messages that lay there, in order.
    pub fn empty(&mut self, task: u8) -> Vec<Letter> {
        let letters = std::mem::take(&mut self.boxes[usize::from(task)]);
        letters.iter().for_each(|letter| self.lying[usize::from(letter.message)] -= 1);
        letters
    }

    pub fn letters(&self, task: u8) -> impl Iterator<Item = Letter> + '_ {
        self.boxes[usize::from(task)].iter().copied()
    }

    fn put(&mut self, task: u8, place: usize, letter: Letter) {
        self.boxes[usize::from(task)].insert(place, letter);
        self.lying[usize::from(letter.message)] += 1;
    }
}
