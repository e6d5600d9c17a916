"""What a tree of files answers, asked by bytes that are made by hand from RFC 1813 (`tools/tree_vectors.py`)."""

from program_rows import Wrong
from tree_calls import Malformed, Refused
from tree_vectors import Differs, all_groups


def ask(room, group):
    """Asks a group of calls, of a new disk."""
    try:
        all_groups(room.programs["jnlfs"], room.folder)[group]()
    except (Differs, Malformed, Refused) as why:
        raise Wrong(why) from None


# Of `journal_treewire::read_request`: other programs, versions and procedures are told so.
def programs_and_procedures_are_told_apart(room):
    ask(room, "calls_of_other_programs")


# Of `journal_mount_wire::answer`, `journal_mount_wire::read_mount_call`.
def a_tree_is_mounted(room):
    ask(room, "mounting")


# Of `journal_treewire::read_credential`.
def each_credential_is_a_caller_or_denied(room):
    ask(room, "credentials")


# Of `journal_treewire::read_handle`.
# Of `journal_treeservice::export`.
def handles_of_nothing_are_refused(room):
    ask(room, "handles")


def arguments_that_are_none_are_garbage(room):
    ask(room, "arguments_that_are_none")


# Of `journal_treeservice::export`: each call of NFS and MOUNT on a tree is answered as RFC 1813
# asks for.
def names_are_names(room):
    ask(room, "names")


def what_a_tree_lacks_is_told(room):
    ask(room, "what_the_tree_lacks")


def new_nodes_are_told_and_found(room):
    ask(room, "new_nodes")


def a_file_that_is_there_gets_a_size_alone(room):
    ask(room, "files_that_are_there")


# Of `journal_treecalls::create_exclusive`.
# Of `journal_treeservice::export`.
def an_exclusive_file_is_made_once(room):
    ask(room, "exclusive_creation")


# Of `journal_treeservice::export`.
def an_exclusive_call_comes_again_in_another_run(room):
    ask(room, "exclusive_creation_in_another_run")


def removed_nodes_are_gone(room):
    ask(room, "removals")


def attributes_are_set(room):
    ask(room, "new_attributes")


def files_are_cut_and_grow_by_zeros(room):
    ask(room, "sizes")


# Of `journal_treeservice::export`.
def times_grow_with_each_change(room):
    ask(room, "times")


# Of `journal_treeservice::export`.
def bytes_are_written(room):
    ask(room, "writing")


def bytes_are_read(room):
    ask(room, "reading")


# Of `journal_treeservice::export`.
def rights_are_those_of_the_mode(room):
    ask(room, "rights")


def an_owner_sets_what_is_his(room):
    ask(room, "owners")


def special_bits_are_as_linux_has_them(room):
    ask(room, "special_bits")


# Of `journal_treeservice::export`.
def a_folder_is_listed_in_pages(room):
    ask(room, "listings")


def facts_of_the_file_system_are_told(room):
    ask(room, "facts")


def a_new_tree_has_its_root_alone(room):
    ask(room, "new_root")


def a_full_tree_has_room_again_after_a_removal(room):
    ask(room, "full_disk")


def a_squashed_root_is_nobody(room):
    ask(room, "squashed_root")


# Of `journal_treeservice::export_to_read`.
def a_tree_that_is_read_alone_is_not_written(room):
    ask(room, "read_only")


# Of `journal_treeservice::export`.
def files_are_there_in_another_run(room):
    ask(room, "another_run")


def times_grow_without_a_clock(room):
    ask(room, "standing_clock")


# Of `journal_treeservice::export`: each RENAME on a tree is answered as RFC 1813 asks for, by the
# first of its cases that holds, and a listing that goes on meanwhile tells a node of its directory
# once.
def a_file_is_renamed(room):
    ask(room, "renames_of_files")


# Of `journal_treeservice::export`.
def a_folder_goes_to_another_parent(room):
    ask(room, "renames_of_folders")


# Of `journal_treeservice::export`.
def a_rename_replaces_what_stood_there(room):
    ask(room, "renames_onto_others")


def a_rename_to_itself_changes_nothing(room):
    ask(room, "renames_to_itself")


# Of `journal_treeservice::export`.
def renames_that_are_none_are_refused(room):
    ask(room, "renames_that_are_refused")


# Of `journal_treeservice::export`.
def the_first_refusal_of_a_rename_is_answered(room):
    ask(room, "the_first_refusal_is_answered")


# Of `journal_treeservice::export`.
def who_may_write_both_folders_renames(room):
    ask(room, "rights_to_rename")


def a_sticky_folder_keeps_what_is_anothers(room):
    ask(room, "sticky_folders")


# Of `journal_treeservice::export`.
def a_renamed_node_is_listed_once(room):
    ask(room, "renames_while_a_folder_is_listed")


# Of `journal_treeservice::export`.
def two_folders_never_hang_in_each_other(room):
    ask(room, "two_folders_into_each_other")


def one_of_all_has_the_name(room):
    ask(room, "one_name_for_all")


# Of `journal_treeservice::export`.
def a_node_is_never_under_both_names(room):
    ask(room, "never_under_both_names")


def a_rename_on_a_full_tree_needs_a_place(room):
    ask(room, "renames_on_a_full_disk")


def a_rename_makes_a_folder_grow(room):
    ask(room, "a_folder_that_grows")


def a_rename_to_read_alone_is_refused(room):
    ask(room, "renames_to_read_and_squashed")


def what_was_renamed_is_so_in_another_run(room):
    ask(room, "renames_in_another_run")


def times_grow_with_each_rename(room):
    ask(room, "times_of_renames")


# Of `journal_treeservice::export`: SYMLINK and READLINK on a tree are answered as RFC 1813 asks
# for, by the first of their cases that holds, and no call is led to where a link leads.
def a_link_has_the_text_that_it_was_given(room):
    ask(room, "links_of_any_text")


# Of `journal_treeservice::export`.
def a_link_has_mode_owner_and_times_of_its_own(room):
    ask(room, "settings_of_links")


# Of `journal_treeservice::export`.
def whoever_asks_reads_a_link(room):
    ask(room, "rights_of_links")


# Of `journal_treeservice::export`.
def a_removed_link_leaves_what_it_led_to(room):
    ask(room, "links_that_go")


# Of `journal_treeservice::export`.
def a_link_is_renamed_as_a_file(room):
    ask(room, "renames_of_links")


# Of `journal_treeservice::export`.
def links_that_are_none_are_refused(room):
    ask(room, "refusals_of_symlink")


# Of `journal_treeservice::export`.
def a_link_is_no_file_and_no_folder(room):
    ask(room, "calls_that_want_another_kind")


# Of `journal_treeservice::export`.
def a_link_takes_one_block_and_one_inode(room):
    ask(room, "links_without_room")


# Of `journal_treeservice::export`.
def a_link_is_there_in_another_run(room):
    ask(room, "links_of_another_run")


# Of `journal_treecalls::create_exclusive`, `journal_treewire::read_request`.
def each_bit_of_a_verifier_counts(room):
    ask(room, "exclusive_verifiers")


def what_changes_nothing_leaves_the_verifier(room):
    ask(room, "exclusive_files_stay")


def each_change_of_a_file_takes_its_verifier_away(room):
    ask(room, "exclusive_files_that_change")


def whoever_searches_a_folder_is_told_an_exclusive_file(room):
    ask(room, "exclusive_by_others")


def an_exclusive_file_is_set_and_written_by_its_owner(room):
    ask(room, "exclusive_as_a_kernel_asks")


def exclusive_calls_that_are_none_are_refused(room):
    ask(room, "exclusive_that_are_none")


def exclusive_calls_at_once_make_one_file(room):
    ask(room, "exclusive_at_once")


def an_exclusive_file_is_told_again_without_room(room):
    ask(room, "exclusive_without_room")


def exclusive_calls_of_nobody_and_of_a_tree_to_read(room):
    ask(room, "exclusive_to_read")


# Of `journal_treecalls::write`, `journal_treecalls::setattr`, `journal_treecalls::read`.
def bytes_around_each_index_block(room):
    ask(room, "large_files_beside_a_model")


def a_shorter_file_gives_its_index_blocks_back(room):
    ask(room, "blocks_of_large_files")


def a_large_write_has_all_its_blocks_or_none(room):
    ask(room, "large_files_without_room")


def a_large_file_is_there_in_another_run(room):
    ask(room, "large_files_in_another_run")


# Of `journal_treecalls::lookup`, `journal_treecalls::readdir`, `journal_treecalls::rename`,
# `journal_treecalls::remove`.
# Of `journal_treeservice::export`.
def names_of_many_blocks_are_found_listed_and_moved(room):
    ask(room, "names_in_levels")


# Of `jnlfs::growing::grow`.
def a_tree_grows_and_keeps_its_files(room):
    ask(room, "a_tree_that_grows")


# Of `jnlfs::growing::grow`.
def growths_that_are_none_are_refused(room):
    ask(room, "growths_that_are_refused")


# Of `jnlfs::growing::grow`: wherever it is killed, or the power fails.
def a_growth_that_is_stopped_leaves_a_sound_tree(room):
    ask(room, "a_first_growth_that_is_stopped")


def a_further_growth_that_is_stopped_leaves_a_sound_tree(room):
    ask(room, "a_further_growth_that_is_stopped")
