"""A Dovecot mdbox to compare with, for the benchmarks beside this file."""

import os
import shutil
import subprocess

import store_files

NOBODY = 65534


# Attachments of 128 KiB and more are files of their own, each content once.
ATTACHMENTS = "mail_attachment_fs = sis posix\nmail_attachment_hash = %{sha1}\nmail_attachment_min_size = 128k\n"


def mdbox_of(folder, messages, attachments=False, below=""):
    """The words that start `doveadm` on a Dovecot mdbox of these messages, which is made in the folder, and which stores attachments
    once if that is wanted; in INBOX, or in a mailbox INBOX below another. None without it."""
    if not shutil.which("doveadm"):
        print("doveadm isn't installed")
        return None
    user = os.getuid() or NOBODY
    group = os.getgid() or NOBODY
    config = os.path.join(folder, "dovecot.conf")
    with open(config, "w", encoding="utf-8") as out:
        out.write(
            f"mail_location = mdbox:{folder}/mdbox\nmail_home = {folder}\nmail_uid = {user}\nmail_gid = {group}\n"
            f"first_valid_uid = 1\nbase_dir = {folder}/run\nstate_dir = {folder}/run\nlog_path = /dev/stderr\n"
        )
        if attachments:
            out.write(f"mail_attachment_dir = {folder}/attachments\n{ATTACHMENTS}")
    store_files.write_maildir(os.path.join(folder, "maildir"), messages)
    subprocess.run(["chown", "-R", f"{user}:{group}", folder], check=True)
    os.environ.update(USER="bench", HOME=folder)
    start = ["doveadm", "-c", config]
    imported = subprocess.run([*start, "import", f"maildir:{folder}/maildir", below, "all"], check=False)
    if imported.returncode != 0:
        print(f"doveadm import: status {imported.returncode}")
        return None
    return start


def imap_of(folder, fsync="always"):
    """The words that start Dovecot's IMAP on a mdbox in the folder, logged in, on its standard input and output. None without it.
    Each change is synced before it is answered, as `fsync` is always; attachments are stored once."""
    if not shutil.which("doveadm"):
        print("doveadm isn't installed")
        return None
    user = os.getuid() or NOBODY
    group = os.getgid() or NOBODY
    config = os.path.join(folder, f"dovecot-{fsync}.conf")
    with open(config, "w", encoding="utf-8") as out:
        out.write(
            f"mail_location = mdbox:{folder}/mdbox\nmail_home = {folder}\nmail_uid = {user}\nmail_gid = {group}\nfirst_valid_uid = 1\n"
            f"base_dir = {folder}/run\nstate_dir = {folder}/run\nlog_path = {folder}/log\nssl = no\nmail_fsync = {fsync}\n"
            f"mail_attachment_dir = {folder}/attachments\n{ATTACHMENTS}"
        )
    os.chmod(folder, 0o755)
    subprocess.run(["chown", "-R", f"{user}:{group}", folder], check=True)
    drop = [] if os.getuid() else ["setpriv", f"--reuid={user}", f"--regid={group}", "--clear-groups"]
    return ["env", "USER=bench", f"HOME={folder}", *drop, "doveadm", "-c", config, "exec", "imap"]
