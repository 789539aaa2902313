//! Long-term credentials.

use crate::secret::Secret;
use std::error::Error;
use std::fmt;

/// The most bytes of a user name (RFC 8489, section 14.3).
const MAX_USERNAME: usize = 508;

/// The most bytes of a password.
const MAX_PASSWORD: usize = 65_535;

/// A user name and a password (RFC 8489, section 9.2). They are bytes: text is to be prepared before (section 14.3). The memory
/// of the password is overwritten when the value is dropped.
#[derive(Clone, PartialEq, Eq)]
pub struct TurnCredentials {
    username: Box<[u8]>,
    password: Secret,
}

/// Why a user name and a password are no credentials.
#[derive(Clone, Copy, Debug, PartialEq, Eq)]
#[non_exhaustive]
pub enum CredentialsError {
    /// The user name is empty.
    EmptyUsername,
    /// The user name has over 508 bytes.
    UsernameTooLong,
    /// The password has over 65,535 bytes.
    PasswordTooLong,
}

impl fmt::Display for CredentialsError {
    fn fmt(&self, f: &mut fmt::Formatter<'_>) -> fmt::Result {
        f.write_str(match self {
            CredentialsError::EmptyUsername => "the user name is empty",
            CredentialsError::UsernameTooLong => "the user name has over 508 bytes",
            CredentialsError::PasswordTooLong => "the password has over 65535 bytes",
        })
    }
}

impl Error for CredentialsError {}

impl TurnCredentials {
    /// The credentials of a user.
    ///
    /// # Panics
    ///
    /// If [`TurnCredentials::try_new`] returns an error.
    pub fn new(username: impl AsRef<[u8]>, password: impl AsRef<[u8]>) -> TurnCredentials {
        TurnCredentials::try_new(username, password).unwrap_or_else(|error| panic!("{error}"))
    }

    /// The credentials of a user.
    ///
    /// # Errors
    ///
    /// The user name is empty or has over 508 bytes, or the password has over 65,535.
    ///
    /// # Examples
    ///
    /// ```
    /// use yarrowdoor::types::{CredentialsError, TurnCredentials};
    /// assert_eq!(TurnCredentials::try_new("user", "pass"), Ok(TurnCredentials::new("user", "pass")));
    /// assert_eq!(TurnCredentials::try_new("", "pass"), Err(CredentialsError::EmptyUsername));
    /// ```
    pub fn try_new(
        username: impl AsRef<[u8]>,
        password: impl AsRef<[u8]>,
    ) -> Result<TurnCredentials, CredentialsError> {
        let (username, password) = (username.as_ref(), password.as_ref());
        if username.is_empty() {
            return Err(CredentialsError::EmptyUsername);
        }
        if username.len() > MAX_USERNAME {
            return Err(CredentialsError::UsernameTooLong);
        }
        if password.len() > MAX_PASSWORD {
            return Err(CredentialsError::PasswordTooLong);
        }
        Ok(TurnCredentials {
            username: username.into(),
            password: Secret::new(password),
        })
    }

    /// The user name.
    #[must_use]
    pub fn username(&self) -> &[u8] {
        &self.username
    }

    /// The password.
    #[must_use]
    pub fn password(&self) -> &[u8] {
        self.password.as_bytes()
    }
}

/// The user name, and not the password.
impl fmt::Debug for TurnCredentials {
    fn fmt(&self, f: &mut fmt::Formatter<'_>) -> fmt::Result {
        f.debug_struct("TurnCredentials")
            .field("username", &String::from_utf8_lossy(&self.username))
            .finish_non_exhaustive()
    }
}
