//! The commands, in the order of the help. A command is a file of its own and a row here; help, manual and completions
//! follow.

use crate::command::Command;
use crate::{add_device, add_devices, add_disk, canon, card, check, completions, diff, explain};
use crate::{
    extract, list, manual, message, ready, region, remove_device, remove_disk, replace_device,
    salvage, set, sheet, show, wrapper,
};

pub const ALL: &[Command] = &[
    check::COMMAND,
    explain::COMMAND,
    list::COMMAND,
    show::COMMAND,
    sheet::COMMAND,
    diff::COMMAND,
    extract::COMMAND,
    card::COMMAND,
    ready::COMMAND,
    canon::COMMAND,
    salvage::COMMAND,
    add_device::COMMAND,
    add_devices::COMMAND,
    add_disk::COMMAND,
    remove_device::COMMAND,
    remove_disk::COMMAND,
    replace_device::COMMAND,
    set::COMMAND,
    wrapper::COMMAND,
    message::COMMAND,
    region::COMMAND,
    completions::COMMAND,
    manual::COMMAND,
];
