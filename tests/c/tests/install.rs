//! host/install: a C and a C++ host are built with the installed copy alone, by pkg-config and by CMake where these are there;
//! the copy may be moved; its version is the header's and that of docs/CHANGES.md.

mod tools;

use std::fs;
use std::path::{Path, PathBuf};
use std::process::Command;
use tools::{copied, printed, repository, run, scratch, text};

/// An installed copy, moved behind the installation, and the example host as C and as C++ beside it.
fn copy(name: &str) -> (PathBuf, PathBuf) {
    let folder = scratch(name);
    let told = printed(Command::new(repository().join("host/install")).arg("first").current_dir(&folder), b"");
    assert_eq!(told, format!("mcx11 {} is below first\n", version()));
    let prefix = folder.join("moved");
    fs::rename(folder.join("first"), &prefix).unwrap();
    for file in ["host.c", "host.cpp"] {
        fs::copy(repository().join("host/example.c"), folder.join(file)).unwrap();
    }
    (folder, prefix)
}

fn version() -> String {
    let header = text("host/mcx11.h");
    let part = |name: &str| {
        let (_, rest) = header.split_once(&format!("#define MCX11_VERSION{name} ")).expect("a version");
        rest.split_whitespace().next().expect("a number").trim_matches('"').to_string()
    };
    assert_eq!(part(""), [part("_MAJOR"), part("_MINOR"), part("_PATCH")].join("."));
    part("")
}

#[test]
fn what_is_installed() {
    let (_, prefix) = copy("installed");
    let same = |below: &str, from: &str| {
        assert_eq!(
            fs::read(prefix.join(below)).expect(below),
            fs::read(repository().join(from)).expect(from),
            "{below}"
        );
    };
    let headers = fs::read_dir(repository().join("host")).unwrap().map(|file| file.unwrap().file_name());
    let headers: Vec<String> =
        headers.map(|name| name.into_string().unwrap()).filter(|name| name.ends_with(".h")).collect();
    assert_eq!(headers.len(), 5, "{headers:?}");
    for header in headers {
        same(&format!("include/{header}"), &format!("host/{header}"));
    }
    same("lib/libmcx11.a", "target/staticlib/libmcx11.a");
    for paper in ["HOST", "FRAMES", "MEMORY", "CHANGES"] {
        same(&format!("share/doc/mcx11/{paper}.md"), &format!("docs/{paper}.md"));
        for link in text(&format!("docs/{paper}.md")).split("](").skip(1) {
            let link = link.split([')', '#']).next().expect("a link");
            assert!(
                prefix.join("share/doc/mcx11").join(link).exists(),
                "{paper} leads to {link}, which is not installed"
            );
        }
    }
    let newest = text("docs/CHANGES.md").split("\n## ").nth(1).and_then(|rest| rest.lines().next().map(str::to_string));
    assert_eq!(newest, Some(version()), "docs/CHANGES.md begins with the header's version");
}

#[test]
#[cfg_attr(not(has_pkg_config), ignore = "pkg-config is missing")]
fn hosts_are_built_with_pkg_config() {
    let (folder, prefix) = copy("pkg-config");
    let asked = |what: &str| {
        let mut command = Command::new("pkg-config");
        let told = printed(command.env("PKG_CONFIG_PATH", prefix.join("lib/pkgconfig")).args([what, "mcx11"]), b"");
        told.split_whitespace().map(str::to_string).collect::<Vec<_>>()
    };
    assert_eq!(asked("--modversion"), [version()]);
    for (compiler, source) in [("gcc", "host.c"), ("g++", "host.cpp")] {
        let mut compile = Command::new(compiler);
        compile.args(asked("--cflags")).args(["-o", "built", source]).args(asked("--libs"));
        printed(compile.current_dir(&folder), b"");
        assert_eq!(printed(&mut Command::new(folder.join("built")), b""), text("host/example.out"), "{compiler}");
    }
}

fn cmake(folder: &Path, prefix: &Path, lists: &str) -> bool {
    fs::remove_dir_all(folder.join("build")).ok();
    fs::write(folder.join("CMakeLists.txt"), lists).unwrap();
    let mut cmake = Command::new("cmake");
    cmake.args(["-S", ".", "-B", "build"]).arg(format!("-DCMAKE_PREFIX_PATH={}", prefix.display()));
    run(cmake.current_dir(folder), b"").status.success()
}

#[test]
#[cfg_attr(not(has_cmake), ignore = "cmake is missing")]
fn hosts_are_built_with_cmake() {
    let (folder, prefix) = copy("cmake");
    for (language, source) in [("C", "host.c"), ("CXX", "host.cpp")] {
        let lists = |version: &str| {
            format!(
                "cmake_minimum_required(VERSION 3.13)\nproject(host {language})\n\
                 find_package(mcx11 {version} REQUIRED)\nfind_package(mcx11 REQUIRED)\nadd_executable(host {source})\n\
                 target_link_libraries(host mcx11::mcx11)\n"
            )
        };
        let major: u32 = version().split('.').next().unwrap().parse().expect("a number");
        for other in [format!("{}.0", major + 1), format!("{major}.999"), format!("{}.0", major - 1)] {
            assert!(!cmake(&folder, &prefix, &lists(&other)), "{other} is not there");
        }
        for fits in [version() + " EXACT", format!("{major}.0")] {
            assert!(cmake(&folder, &prefix, &lists(&fits)), "{fits}");
        }
        printed(Command::new("cmake").args(["--build", "build"]).current_dir(&folder), b"");
        assert_eq!(printed(&mut Command::new(folder.join("build/host")), b""), text("host/example.out"), "{language}");
    }
}

#[test]
fn the_installation_says_what_is_missing() {
    let folder = scratch("not installed");
    fs::create_dir(folder.join("host")).unwrap();
    copied(&["install", "mcx11.h"], &folder.join("host"));
    let cases =
        [(vec![], "host/install PREFIX"), (vec!["there"], "run './build archive' first"), (vec!["a", "b"], "PREFIX")];
    for (arguments, advice) in cases {
        let output = run(Command::new(folder.join("host/install")).args(&arguments).current_dir(&folder), b"");
        assert_eq!(output.status.code(), Some(1), "{arguments:?}");
        assert!(String::from_utf8_lossy(&output.stderr).contains(advice), "{arguments:?}: {output:?}");
        assert!(!folder.join("there").exists(), "nothing is written");
    }
}
