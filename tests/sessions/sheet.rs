//! Writes session sheets. Specification: Sheet file; Contents.

/// The bodies of a session, in the order of the contents.
#[derive(Clone, Default)]
pub struct Sheet {
    pub commands: Vec<[u32; 3]>,
    pub inputs: Vec<u32>,
    /// Provider, then miners 1 to 3.
    pub tapes: [Vec<u32>; 4],
}

impl Sheet {
    /// The six bodies as word lists.
    pub fn bodies(&self) -> [Vec<u32>; 6] {
        let [provider, one, two, three] = self.tapes.clone();
        let commands = self.commands.concat();
        [commands, self.inputs.clone(), provider, one, two, three]
    }

    /// The whole file's words.
    pub fn words(&self) -> Vec<u32> {
        words_of_bodies(&self.bodies())
    }

    /// The whole file.
    pub fn bytes(&self) -> Vec<u8> {
        bytes_of_words(&self.words())
    }
}

/// The contents, with each body starting where the one before it ends, and the bodies.
pub fn words_of_bodies(bodies: &[Vec<u32>; 6]) -> Vec<u32> {
    let mut contents = Vec::new();
    let mut start = 12;
    for body in bodies {
        contents.extend([start, body.len() as u32]);
        start += body.len() as u32;
    }
    contents.extend(bodies.concat());
    contents
}

/// Four bytes for each word, the lowest byte first.
pub fn bytes_of_words(words: &[u32]) -> Vec<u8> {
    words.iter().flat_map(|word| word.to_le_bytes()).collect()
}
