//! A second reading of request C-11, from document 02's words and lundump.c's text, apart from the proved code and its definitions.
//! It goes on by position through the bytes and keeps whole functions; functions are put in order by their first byte at the end.

/// Why 15 is given.
#[derive(Clone, Copy, PartialEq, Eq, Debug)]
pub enum Why {
    Ended,
    Limit,
    Overflow,
    NoString,
    TooLong,
    NoFunction,
}

#[derive(Clone, Copy, PartialEq, Eq, Debug)]
pub enum Refused {
    Header,
    Bad(Why),
    Deep,
    Tag(usize),
    Short,
}

impl Refused {
    pub fn number(self) -> u64 {
        match self {
            Refused::Tag(_) => 3,
            Refused::Short => 6,
            Refused::Header => 14,
            Refused::Bad(_) => 15,
            Refused::Deep => 16,
        }
    }

    pub fn place(self) -> u64 {
        match self {
            Refused::Tag(index) => index as u64,
            _ => 0,
        }
    }
}

/// Where a string lies, and how long it is.
pub type Place = (usize, usize);

#[derive(Clone, Debug)]
pub enum Constant {
    Plain(u8, u64),
    Text(u8, Place),
}

#[derive(Clone, Debug, Default)]
pub struct Function {
    pub first_byte: usize,
    pub words: Vec<u32>,
    pub constants: Vec<Constant>,
    pub names: Vec<Option<Place>>,
}

/// Readings: as document 02 has it; as the real loader does it; and four that are wrong on purpose.
#[derive(Clone, Copy, PartialEq, Eq, Debug)]
pub enum Rules {
    Request,
    Loader,
    /// 5.4.4: as many names as their count says
    NamesByCount,
    /// the limit is held against the number after the shift
    LimitAfterShift,
    /// the tag that stands in the file
    TagOfFile,
    /// a level more
    OneLevelMore,
}

const HEADER: &[u8] = b"\x1bLua\x54\x00\x19\x93\r\n\x1a\n\x04\x08\x08\x78\x56\0\0\0\0\0\0\0\0\0\0\0\x28\x77\x40";

struct Reader<'a> {
    bytes: &'a [u8],
    at: usize,
    rules: Rules,
    functions: Vec<Function>,
}

type Read<T> = Result<T, Refused>;

impl Reader<'_> {
    fn byte(&mut self) -> Read<u8> {
        let b = *self.bytes.get(self.at).ok_or(Refused::Bad(Why::Ended))?;
        self.at += 1;
        Ok(b)
    }

    fn skip(&mut self, n: u128) -> Read<usize> {
        let start = self.at;
        if n > (self.bytes.len() - start) as u128 {
            return Err(Refused::Bad(Why::Ended));
        }
        self.at += n as usize;
        Ok(start)
    }

    fn unsigned(&mut self, limit: u64) -> Read<u64> {
        let mut x: u128 = 0;
        loop {
            let b = self.byte()?;
            if self.rules != Rules::LimitAfterShift && x >= u128::from(limit >> 7) {
                return Err(Refused::Bad(Why::Overflow));
            }
            x = x << 7 | u128::from(b & 0x7f);
            if self.rules == Rules::LimitAfterShift && x > u128::from(limit) {
                return Err(Refused::Bad(Why::Overflow));
            }
            if b & 0x80 != 0 {
                return Ok(x as u64);
            }
        }
    }

    fn int(&mut self) -> Read<u64> {
        self.unsigned(i32::MAX as u64)
    }

    fn string(&mut self) -> Read<Option<Place>> {
        match self.unsigned(u64::MAX)? {
            0 => Ok(None),
            size => Ok(Some((self.skip(u128::from(size - 1))?, (size - 1) as usize))),
        }
    }

    fn eight(&mut self) -> Read<u64> {
        let start = self.skip(8)?;
        Ok(u64::from_le_bytes(self.bytes[start..start + 8].try_into().unwrap()))
    }

    fn count(&mut self, most: u64) -> Read<u64> {
        let n = self.int()?;
        if self.rules != Rules::Loader && n > most {
            return Err(Refused::Bad(Why::Limit));
        }
        Ok(n)
    }

    fn constant(&mut self, index: usize) -> Read<Constant> {
        let tag = self.byte()?;
        Ok(match tag {
            0 | 1 | 17 => Constant::Plain(tag, 0),
            3 | 19 => Constant::Plain(tag, self.eight()?),
            4 | 20 => {
                let place = self.string()?.ok_or(Refused::Bad(Why::NoString))?;
                let loaded = if place.1 <= 40 { 4 } else { 20 };
                Constant::Text(if self.rules == Rules::TagOfFile { tag } else { loaded }, place)
            }
            // compiled without assertions, the loader leaves nil there
            _ if self.rules == Rules::Loader => Constant::Plain(0, 0),
            _ => return Err(Refused::Tag(index)),
        })
    }

    fn function(&mut self, level: usize) -> Read<()> {
        let mut f = Function { first_byte: self.at, ..Function::default() };
        self.string()?;
        self.int()?;
        self.int()?;
        self.skip(3)?;
        let n = self.count(32768)?;
        let start = self.skip(4 * u128::from(n))?;
        f.words = self.bytes[start..self.at].chunks(4).map(|w| u32::from_le_bytes(w.try_into().unwrap())).collect();
        for index in 0..self.count(65536)? {
            let constant = self.constant(index as usize)?;
            f.constants.push(constant);
        }
        let upvalues = self.count(255)?;
        self.skip(3 * u128::from(upvalues))?;
        let levels = if self.rules == Rules::OneLevelMore { 33 } else { 32 };
        for _ in 0..self.int()? {
            if self.rules != Rules::Loader && level == levels {
                return Err(Refused::Deep);
            }
            self.function(level + 1)?;
        }
        let lines = self.int()?;
        self.skip(u128::from(lines))?;
        for _ in 0..self.int()? {
            self.int()?;
            self.int()?;
        }
        for _ in 0..self.int()? {
            self.string()?;
            self.int()?;
            self.int()?;
        }
        let named = self.int()?;
        let reads = if self.rules == Rules::NamesByCount { named } else { upvalues * u64::from(named != 0) };
        for _ in 0..reads {
            let name = self.string()?;
            f.names.push(name);
        }
        f.names.resize(upvalues as usize, None);
        self.functions.push(f);
        Ok(())
    }
}

/// All functions of a chunk, by their first byte.
pub fn read(bytes: &[u8], rules: Rules) -> Read<Vec<Function>> {
    if rules != Rules::Loader && bytes.len() > 4_294_967_295 {
        return Err(Refused::Bad(Why::TooLong));
    }
    let mut r = Reader { bytes, at: 0, rules, functions: vec![] };
    for &h in HEADER {
        if r.byte()? != h {
            return Err(Refused::Header);
        }
    }
    r.byte()?;
    r.function(1)?;
    r.functions.sort_by_key(|f| f.first_byte);
    Ok(r.functions)
}

/// Function k.
pub fn choose(functions: &Read<Vec<Function>>, k: usize) -> Read<&Function> {
    match functions {
        Ok(list) => list.get(k).ok_or(Refused::Bad(Why::NoFunction)),
        Err(e) => Err(*e),
    }
}

pub fn span((start, size): Place) -> u64 {
    start as u64 | (size as u64) << 32
}

impl Function {
    pub fn tags(&self) -> Vec<u8> {
        self.constants.iter().map(|k| match k { Constant::Plain(t, _) | Constant::Text(t, _) => *t }).collect()
    }

    pub fn payloads(&self) -> Vec<u64> {
        self.constants.iter().map(|k| match k { Constant::Plain(_, p) => *p, Constant::Text(_, s) => span(*s) }).collect()
    }

    pub fn places(&self) -> Vec<u64> {
        self.names.iter().map(|n| n.map_or(u64::MAX, span)).collect()
    }
}
