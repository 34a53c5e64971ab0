//go:build unix

package tbclient

import (
	"errors"
	"io/fs"
	"os"
	"path/filepath"
	"syscall"
)

// openRegular opens a file to be read. A pipe or a device, which may wait for others or have no end,
// and a folder are refused.
func openRegular(path string) (*os.File, error) {
	file, err := os.OpenFile(path, os.O_RDONLY|syscall.O_NONBLOCK, 0)
	if err != nil {
		return nil, err
	}
	if err := testRegular(file.Stat()); err != nil {
		file.Close()
		return nil, err
	}
	return file, nil
}

// writeWhole puts a file at this path, or at the target of a link there, with these bytes, and with
// the old one's permissions, or 0600. If that fails, the old file is left, and nothing next to
// it.
func writeWhole(path string, data []byte) error {
	path = linked(path)
	old, err := os.Stat(path)
	if err := testRegular(old, err); err != nil && !errors.Is(err, fs.ErrNotExist) {
		return err
	}
	folder, err := os.Open(filepath.Dir(path))
	if err != nil {
		return err
	}
	defer folder.Close()
	if err := replace(path, path+".new", data, old); err != nil {
		return err
	}
	return folder.Sync()
}

// replace writes the new file under a name of its own, and puts it in place of the old one, or of
// none (nil), by a rename.
func replace(path, fresh string, data []byte, old fs.FileInfo) error {
	file, err := openFresh(fresh)
	if err != nil {
		return err
	}
	defer file.Close() // which gives the lock back
	mode := fs.FileMode(0o600)
	if old != nil {
		mode = old.Mode().Perm()
	}
	file.Chmod(mode) // a file system without permissions does without
	if err = fill(file, data); err == nil {
		err = os.Rename(fresh, path)
	}
	if err != nil {
		os.Remove(fresh)
	}
	return err
}

// openFresh opens a file that nobody else writes to until it is closed.
func openFresh(path string) (*os.File, error) {
	for {
		file, err := os.OpenFile(path, os.O_WRONLY|os.O_CREATE|syscall.O_NOFOLLOW|syscall.O_NONBLOCK, 0o600)
		if err != nil {
			return nil, err
		}
		info, err := file.Stat()
		if err := testRegular(info, err); err != nil {
			file.Close()
			return nil, err
		}
		lock(file)
		if there, err := os.Lstat(path); err == nil && os.SameFile(info, there) {
			return file, nil
		}
		file.Close() // another one was written meanwhile, and has taken the old one's place
	}
}

func fill(file *os.File, data []byte) error {
	if err := file.Truncate(0); err != nil {
		return err
	}
	if _, err := file.Write(data); err != nil {
		return err
	}
	return file.Sync()
}
