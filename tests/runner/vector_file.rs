//! Reads the vector file. Its format is described in tests/cases/vector_file.py.

use std::io::Read;

const MAGIC: &[u8] = b"aspda vectors 1\n";

/// One call and its outcome. What the entry does not have is empty or 0.
pub struct Row {
    pub operation: String,
    pub name: String,
    /// The state before a call of program assembly.
    pub state: Vec<u8>,
    /// Of such a call the record.
    pub program: Vec<u8>,
    pub set: Vec<u8>,
    pub rule: u32,
    /// The length of the lent buffer.
    pub room: usize,
    pub word: u64,
    /// The state after the call.
    pub state_after: Vec<u8>,
    /// Where in the lent buffer the call wrote.
    pub start: usize,
    /// What stands there after the call.
    pub written: Vec<u8>,
}

pub struct Vectors {
    stream: Box<dyn Read>,
    operations: Vec<String>,
    blobs: Vec<Vec<u8>>,
    rows: u32,
}

impl Vectors {
    pub fn open(stream: Box<dyn Read>) -> Result<Vectors, String> {
        let mut vectors = Vectors {
            stream,
            operations: Vec::new(),
            blobs: Vec::new(),
            rows: 0,
        };
        if vectors.bytes(MAGIC.len())? != MAGIC {
            return Err("this is no vector file".to_string());
        }
        for _ in 0..vectors.byte()? {
            let name = vectors.text()?;
            vectors.operations.push(name);
        }
        Ok(vectors)
    }

    /// The next row, or none at the file's end entry.
    pub fn next_row(&mut self) -> Result<Option<Row>, String> {
        loop {
            match self.byte()? {
                b'B' => {
                    let length = self.size()?;
                    let blob = self.bytes(length)?;
                    self.blobs.push(blob);
                }
                b'R' => return self.row().map(Some),
                b'A' => return self.assembly_row().map(Some),
                b'E' => return self.end(),
                other => return Err(format!("unknown entry {other} in the vector file")),
            }
        }
    }

    fn row(&mut self) -> Result<Row, String> {
        self.rows += 1;
        Ok(Row {
            operation: self.operation()?,
            name: self.text()?,
            state: Vec::new(),
            program: self.slice()?,
            set: self.slice()?,
            rule: self.number()?,
            room: self.size()?,
            word: u64::from_be_bytes(self.fixed()?),
            state_after: Vec::new(),
            start: 0,
            written: self.slice()?,
        })
    }

    fn assembly_row(&mut self) -> Result<Row, String> {
        self.rows += 1;
        Ok(Row {
            operation: self.operation()?,
            name: self.text()?,
            state: self.slice()?,
            program: self.slice()?,
            set: Vec::new(),
            rule: 0,
            room: self.size()?,
            word: u64::from_be_bytes(self.fixed()?),
            state_after: self.slice()?,
            start: self.size()?,
            written: self.slice()?,
        })
    }

    fn operation(&mut self) -> Result<String, String> {
        let number = usize::from(self.byte()?);
        let name = self.operations.get(number).ok_or("unknown operation")?;
        Ok(name.clone())
    }

    fn end(&mut self) -> Result<Option<Row>, String> {
        if self.number()? != self.rows {
            return Err("the vector file's number of rows is wrong".to_string());
        }
        Ok(None)
    }

    /// Pieces of blobs, joined.
    fn slice(&mut self) -> Result<Vec<u8>, String> {
        let mut joined = Vec::new();
        for _ in 0..self.byte()? {
            let (blob, start, length) = (self.size()?, self.size()?, self.size()?);
            let piece = self
                .blobs
                .get(blob)
                .and_then(|bytes| bytes.get(start..start + length));
            joined.extend_from_slice(piece.ok_or("a piece outside its blob")?);
        }
        Ok(joined)
    }

    fn text(&mut self) -> Result<String, String> {
        let length = usize::from(self.byte()?);
        String::from_utf8(self.bytes(length)?).map_err(|_| "a name is no text".to_string())
    }

    fn byte(&mut self) -> Result<u8, String> {
        Ok(self.fixed::<1>()?[0])
    }

    fn number(&mut self) -> Result<u32, String> {
        Ok(u32::from_be_bytes(self.fixed()?))
    }

    fn size(&mut self) -> Result<usize, String> {
        Ok(self.number()? as usize)
    }

    fn fixed<const N: usize>(&mut self) -> Result<[u8; N], String> {
        let mut bytes = [0; N];
        self.fill(&mut bytes)?;
        Ok(bytes)
    }

    fn bytes(&mut self, length: usize) -> Result<Vec<u8>, String> {
        let mut bytes = vec![0; length];
        self.fill(&mut bytes)?;
        Ok(bytes)
    }

    fn fill(&mut self, bytes: &mut [u8]) -> Result<(), String> {
        self.stream
            .read_exact(bytes)
            .map_err(|problem| format!("the vector file is cut: {problem}"))
    }
}
