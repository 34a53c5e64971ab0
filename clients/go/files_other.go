//go:build !unix

package tbclient

import (
	"errors"
	"io/fs"
	"os"
	"path/filepath"
)

// openRegular opens a regular file to be read, and nothing else.
func openRegular(path string) (*os.File, error) {
	if err := testRegular(os.Stat(path)); err != nil {
		return nil, err
	}
	return os.Open(path)
}

// writeWhole puts a file at this path, or at the target of a link there, with these bytes, by a
// rename. It syncs no folder: Windows has no call for that.
func writeWhole(path string, data []byte) error {
	path = linked(path)
	if err := testRegular(os.Stat(path)); err != nil && !errors.Is(err, fs.ErrNotExist) {
		return err
	}
	file, err := os.CreateTemp(filepath.Dir(path), filepath.Base(path)+".*.new")
	if err != nil {
		return err
	}
	if _, err = file.Write(data); err == nil {
		err = file.Sync()
	}
	if closed := file.Close(); err == nil {
		err = closed
	}
	if err == nil {
		err = os.Rename(file.Name(), path)
	}
	if err != nil {
		os.Remove(file.Name())
	}
	return err
}
