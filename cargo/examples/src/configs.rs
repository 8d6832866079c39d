//! Settings with defaults.

use std::time::Duration;

use educe::Educe;

/// The settings of a server.
#[derive(Educe)]
#[educe(Debug, Clone, PartialEq, Default(new))]
pub struct Config {
    #[educe(Default = "localhost")]
    pub host: String,
    #[educe(Default = 8080)]
    pub port: u16,
    #[educe(Default(expression = Duration::from_secs(30)))]
    pub timeout: Duration,
    pub retry: Retry,
    pub tags: Vec<String>,
}

/// What to do if a request fails.
#[derive(Educe)]
#[educe(Debug, Clone, PartialEq, Eq, Default)]
pub enum Retry {
    Never,
    #[educe(Default)]
    Times {
        #[educe(Default = 3)]
        count: u8,
        with_delay: bool,
    },
}

/// A range of ports, with a default of the whole type.
#[derive(Educe)]
#[educe(Debug, Clone, Copy, PartialEq, Eq, Hash, Default(expression = Ports::upto(1024)))]
pub struct Ports {
    pub first: u16,
    pub last: u16,
}

impl Ports {
    /// The ports from 1 on.
    pub fn upto(last: u16) -> Self {
        Ports { first: 1, last }
    }
}

#[cfg(test)]
mod tests {
    use super::*;

    #[test]
    fn a_config_has_its_defaults() {
        let config = Config::new();
        assert_eq!((config.host.as_str(), config.port), ("localhost", 8080));
        assert_eq!(config.timeout, Duration::from_secs(30));
        assert_eq!(
            config.retry,
            Retry::Times {
                count: 3,
                with_delay: false
            }
        );
        assert!(config.tags.is_empty());
        assert_eq!(config, Config::default());
    }

    #[test]
    fn a_whole_type_has_its_default() {
        assert_eq!(
            Ports::default(),
            Ports {
                first: 1,
                last: 1024
            }
        );
    }
}
