//! The four kinds of catalog record, and what each of them says.

/// What the data of a catalog record say. Dates count seconds, as the volume does.
#[derive(Clone, Copy, Debug, PartialEq, Eq)]
pub enum Entry {
    Directory(Directory),
    File(File),
    /// Leads from the number of a directory to its own record.
    DirectoryThread(Thread),
    /// Leads from the number of a file to its own record.
    FileThread(Thread),
}

/// The record of a directory.
#[derive(Clone, Copy, Debug, PartialEq, Eq)]
pub struct Directory {
    pub flags: u16,
    /// How many entries it has.
    pub valence: u16,
    pub directory_id: u32,
    pub created: u32,
    pub modified: u32,
    pub backed_up: u32,
    pub finder_info: [u8; 16],
    pub more_finder_info: [u8; 16],
}

/// The record of a file.
#[derive(Clone, Copy, Debug, PartialEq, Eq)]
pub struct File {
    pub flags: u8,
    pub file_type: u8,
    pub finder_info: [u8; 16],
    pub file_id: u32,
    pub data_fork: Fork,
    pub resource_fork: Fork,
    pub created: u32,
    pub modified: u32,
    pub backed_up: u32,
    pub more_finder_info: [u8; 16],
    pub clump_size: u16,
}

/// What the record of a file says of one of its forks.
#[derive(Clone, Copy, Debug, PartialEq, Eq)]
pub struct Fork {
    pub first_block: u16,
    pub logical_length: u32,
    pub physical_length: u32,
    pub first_extents: [Extent; 3],
}

/// Blocks side by side.
#[derive(Clone, Copy, Debug, PartialEq, Eq)]
pub struct Extent {
    pub first_block: u16,
    pub block_count: u16,
}

/// The parent and the name under which a directory or a file has its own record.
#[derive(Clone, Copy, Debug, PartialEq, Eq)]
pub struct Thread {
    pub parent_id: u32,
    /// As it stands in the record; no rule keeps it at 31 or below.
    pub name_length: u8,
    /// The name, and after it what the record has there.
    pub name: [u8; 31],
}

impl Entry {
    /// Reads the data of a record; none if their type and their length do not go together.
    pub fn read(data: &[u8]) -> Option<Entry> {
        let (&data_type, fields) = data.split_first()?;
        // After the type comes a reserved byte.
        let mut fields = Fields(fields.get(1..)?);
        match (data_type, data.len()) {
            (1, 70) => Some(Entry::Directory(fields.directory())),
            (2, 102) => Some(Entry::File(fields.file())),
            (3, 46) => Some(Entry::DirectoryThread(fields.thread())),
            (4, 46) => Some(Entry::FileThread(fields.thread())),
            _ => None,
        }
    }
}

impl Thread {
    /// The bytes that the name length counts, up to all there are.
    pub fn name(&self) -> &[u8] {
        &self.name[..self.name.len().min(self.name_length.into())]
    }
}

/// The fields that are still to be read, in the order in which they stand.
struct Fields<'a>(&'a [u8]);

impl Fields<'_> {
    fn take<const SIZE: usize>(&mut self) -> [u8; SIZE] {
        let (&taken, left) = self.0.split_first_chunk().expect("the length goes with the type");
        self.0 = left;
        taken
    }

    fn byte(&mut self) -> u8 {
        u8::from_be_bytes(self.take())
    }

    fn word(&mut self) -> u16 {
        u16::from_be_bytes(self.take())
    }

    fn long(&mut self) -> u32 {
        u32::from_be_bytes(self.take())
    }

    fn directory(&mut self) -> Directory {
        Directory {
            flags: self.word(),
            valence: self.word(),
            directory_id: self.long(),
            created: self.long(),
            modified: self.long(),
            backed_up: self.long(),
            finder_info: self.take(),
            more_finder_info: self.take(),
        }
    }

    fn file(&mut self) -> File {
        let flags = self.byte();
        let file_type = self.byte();
        let finder_info = self.take();
        let file_id = self.long();
        let data_fork = self.fork();
        let resource_fork = self.fork();
        let [created, modified, backed_up] = [self.long(), self.long(), self.long()];
        let more_finder_info = self.take();
        let clump_size = self.word();
        File {
            flags,
            file_type,
            finder_info,
            file_id,
            data_fork: Fork { first_extents: self.extents(), ..data_fork },
            resource_fork: Fork { first_extents: self.extents(), ..resource_fork },
            created,
            modified,
            backed_up,
            more_finder_info,
            clump_size,
        }
    }

    /// A fork without its extents, which stand further on.
    fn fork(&mut self) -> Fork {
        Fork {
            first_block: self.word(),
            logical_length: self.long(),
            physical_length: self.long(),
            first_extents: [Extent { first_block: 0, block_count: 0 }; 3],
        }
    }

    fn extents(&mut self) -> [Extent; 3] {
        [(); 3].map(|()| Extent { first_block: self.word(), block_count: self.word() })
    }

    fn thread(&mut self) -> Thread {
        let _reserved: [u8; 8] = self.take();
        Thread { parent_id: self.long(), name_length: self.byte(), name: self.take() }
    }
}
