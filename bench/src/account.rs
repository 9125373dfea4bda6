//! Accounts and the login decision.

use crate::fault::Refusal;
use crate::packet::{Login, Status, VERSION};

/// How many rows a table has.
pub const ROWS: usize = 8;

/// A user, a computer ID and a protocol, each padded with spaces on the right.
#[derive(Clone, Copy, PartialEq, Eq, Debug)]
pub struct Account {
    user: [u8; 5],
    computer: [u8; 8],
    protocol: [u8; 8],
}

impl Account {
    /// Judges three fields and pads them.
    pub fn new(user: &[u8], computer: &[u8], protocol: &[u8]) -> Result<Account, Refusal> {
        Ok(Account {
            user: padded(user)?,
            computer: padded(computer)?,
            protocol: padded(protocol)?,
        })
    }

    pub fn user(&self) -> &[u8; 5] {
        &self.user
    }

    pub fn computer(&self) -> &[u8; 8] {
        &self.computer
    }

    pub fn protocol(&self) -> &[u8; 8] {
        &self.protocol
    }

    /// Whether a padded user and computer ID are this account's, capital and small letters alike.
    fn matches(&self, user: &[u8], computer: &[u8]) -> bool {
        self.user.eq_ignore_ascii_case(user) && self.computer.eq_ignore_ascii_case(computer)
    }
}

fn padded<const WIDTH: usize>(text: &[u8]) -> Result<[u8; WIDTH], Refusal> {
    let visible = text.iter().all(|byte| (b'!'..=b'~').contains(byte));
    if text.is_empty() || text.len() > WIDTH || !visible {
        return Err(Refusal::BadAccountField);
    }
    let mut field = [b' '; WIDTH];
    field[..text.len()].copy_from_slice(text);
    Ok(field)
}

/// A row of the table in use.
#[derive(Clone, Copy, Debug)]
pub struct Row {
    pub account: Account,
    pub marked: bool,
}

const FREE: Row = Row {
    account: Account {
        user: [b' '; 5],
        computer: [b' '; 8],
        protocol: [b' '; 8],
    },
    marked: false,
};

/// The accounts by which a hub lets seats in.
#[derive(Clone, Debug)]
pub struct Accounts {
    rows: [Row; ROWS],
    count: usize,
}

impl Default for Accounts {
    fn default() -> Self {
        Accounts::new()
    }
}

impl Accounts {
    pub fn new() -> Accounts {
        Accounts {
            rows: [FREE; ROWS],
            count: 0,
        }
    }

    /// The rows in use.
    pub fn rows(&self) -> &[Row] {
        &self.rows[..self.count]
    }

    pub fn count(&self) -> usize {
        self.count
    }

    /// Adds a row without a mark and gives its place.
    pub fn add(&mut self, user: &[u8], computer: &[u8], protocol: &[u8]) -> Result<usize, Refusal> {
        let account = Account::new(user, computer, protocol)?;
        let place = self.count;
        if place == ROWS || self.lookup(&account.user, &account.computer).is_some() {
            return Err(Refusal::AccountTaken);
        }
        self.rows[place] = Row {
            account,
            marked: false,
        };
        self.count += 1;
        Ok(place)
    }

    /// The place of the row that matches.
    pub fn lookup(&self, user: &[u8], computer: &[u8]) -> Option<usize> {
        self.rows()
            .iter()
            .position(|row| row.account.matches(user, computer))
    }

    /// The status of a login, where the log has that session and that highest number.
    pub fn decide(&self, login: &Login, session: u8, highest: u64) -> Status {
        match self.judge(login, session, highest) {
            Ok(_) => Status::Accepted,
            Err(status) => status,
        }
    }

    /// Decides a login; where it is accepted, marks its row and gives the row's place.
    pub fn admit(&mut self, login: &Login, session: u8, highest: u64) -> Result<usize, Status> {
        let place = self.judge(login, session, highest)?;
        self.rows[place].marked = true;
        Ok(place)
    }

    /// The row of a login that passes all six checks, or the status of the first that fails.
    fn judge(&self, login: &Login, session: u8, highest: u64) -> Result<usize, Status> {
        if login.version != VERSION {
            return Err(Status::WrongVersion);
        }
        let place = self
            .lookup(login.user, login.computer)
            .ok_or(Status::UnknownUser)?;
        let row = &self.rows[place];
        if row.account.protocol != *login.protocol {
            Err(Status::WrongProtocol)
        } else if row.marked {
            Err(Status::AlreadyLoggedIn)
        } else if login.session != 0 && login.session != session {
            Err(Status::SessionUnavailable)
        } else if login.number > highest.saturating_add(1) {
            Err(Status::InvalidNumber)
        } else {
            Ok(place)
        }
    }

    pub fn mark(&mut self, place: usize) {
        self.set_mark(place, true);
    }

    pub fn unmark(&mut self, place: usize) {
        self.set_mark(place, false);
    }

    fn set_mark(&mut self, place: usize, marked: bool) {
        if let Some(row) = self.rows[..self.count].get_mut(place) {
            row.marked = marked;
        }
    }
}

#[cfg(test)]
mod tests {
    use super::*;

    fn table() -> Accounts {
        let mut accounts = Accounts::new();
        assert_eq!(accounts.add(b"MM01", b"DESK-1", b"FILL"), Ok(0));
        assert_eq!(accounts.add(b"MM02", b"DESK-2", b"FILL"), Ok(1));
        accounts
    }

    fn login() -> Login<'static> {
        Login {
            version: b"1.1  ",
            user: b"MM01 ",
            computer: b"DESK-1  ",
            protocol: b"FILL    ",
            session: 0,
            number: 1,
        }
    }

    #[test]
    fn fields() {
        assert!(Account::new(b"", b"c", b"p").is_err());
        assert!(Account::new(b"sixsix", b"c", b"p").is_err());
        assert!(Account::new(b"u", b"ninenine9", b"p").is_err());
        assert!(Account::new(b"u", b"c", b"ninenine9").is_err());
        assert!(Account::new(b"a b", b"c", b"p").is_err());
        assert!(Account::new(b"u", b"\x7F", b"p").is_err());
        let account = Account::new(b"!~", b"12345678", b"p").unwrap();
        assert_eq!(account.user(), b"!~   ");
    }

    #[test]
    fn adding() {
        let mut accounts = table();
        assert_eq!(
            accounts.add(b"mm01", b"desk-1", b"OTHER"),
            Err(Refusal::AccountTaken)
        );
        for n in 3..=8 {
            assert_eq!(
                accounts.add(format!("MM0{n}").as_bytes(), b"D", b"F"),
                Ok(n - 1)
            );
        }
        assert_eq!(
            accounts.add(b"MM09", b"D", b"F"),
            Err(Refusal::AccountTaken)
        );
        assert_eq!(
            accounts.add(b"MM0999", b"D", b"F"),
            Err(Refusal::BadAccountField)
        );
        assert_eq!(accounts.count(), 8);
    }

    #[test]
    fn looking_up() {
        let accounts = table();
        assert_eq!(accounts.lookup(b"mm02 ", b"desk-2  "), Some(1));
        assert_eq!(accounts.lookup(b"mm02", b"desk-2  "), None);
        assert_eq!(accounts.lookup(b"mm01 ", b"desk-2  "), None);
    }

    #[test]
    fn the_first_check_decides() {
        let mut accounts = table();
        let decide = |accounts: &Accounts, login| accounts.decide(&login, 7, 3);
        assert_eq!(decide(&accounts, login()), Status::Accepted);
        assert_eq!(
            decide(
                &accounts,
                Login {
                    number: 4,
                    ..login()
                }
            ),
            Status::Accepted
        );
        let late = Login {
            number: 5,
            ..login()
        };
        assert_eq!(decide(&accounts, late), Status::InvalidNumber);
        let other = Login { session: 8, ..late };
        assert_eq!(decide(&accounts, other), Status::SessionUnavailable);
        assert_eq!(
            decide(
                &accounts,
                Login {
                    session: 7,
                    ..login()
                }
            ),
            Status::Accepted
        );
        accounts.mark(0);
        accounts.mark(8);
        assert_eq!(decide(&accounts, other), Status::AlreadyLoggedIn);
        let protocol = Login {
            protocol: b"fill    ",
            ..other
        };
        assert_eq!(decide(&accounts, protocol), Status::WrongProtocol);
        let user = Login {
            user: b"MM03 ",
            ..protocol
        };
        assert_eq!(decide(&accounts, user), Status::UnknownUser);
        let version = Login {
            version: b"1.0  ",
            ..user
        };
        assert_eq!(decide(&accounts, version), Status::WrongVersion);
        let any = Login {
            number: u64::MAX,
            user: b"MM02 ",
            computer: b"DESK-2  ",
            ..login()
        };
        assert_eq!(accounts.decide(&any, 7, u64::MAX), Status::Accepted);
    }

    #[test]
    fn one_login_at_a_time() {
        let mut accounts = table();
        assert_eq!(accounts.admit(&login(), 1, 0), Ok(0));
        assert_eq!(accounts.admit(&login(), 1, 0), Err(Status::AlreadyLoggedIn));
        accounts.unmark(0);
        assert_eq!(accounts.admit(&login(), 1, 0), Ok(0));
    }
}
