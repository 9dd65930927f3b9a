//! Stands in for the original's JSON value, which ir.rs names but nothing
//! here runs: just enough of it for ir.rs to compile.

pub mod json_rw {
    pub enum Json {
        Null,
        Bool(bool),
        Int(i64),
        Str(String),
        Arr(Vec<Json>),
        Obj(Vec<(String, Json)>),
    }

    impl Json {
        pub fn bool(value: bool) -> Json {
            Json::Bool(value)
        }

        pub fn int(value: i64) -> Json {
            Json::Int(value)
        }

        pub fn arr(entries: Vec<Json>) -> Json {
            Json::Arr(entries)
        }

        pub fn obj(pairs: Vec<(String, Json)>) -> Json {
            Json::Obj(pairs)
        }

        pub fn get(&self, key: &str) -> Option<&Json> {
            match self {
                Json::Obj(pairs) => pairs.iter().find(|(k, _)| k == key).map(|(_, v)| v),
                _ => None,
            }
        }

        pub fn as_str(&self) -> Option<&str> {
            match self {
                Json::Str(text) => Some(text),
                _ => None,
            }
        }
    }
}
